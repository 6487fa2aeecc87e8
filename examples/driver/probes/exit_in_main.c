#include "peregrine.h"
#include <stdlib.h>
int main(void) {
pg_out(1); exit(3);
}
