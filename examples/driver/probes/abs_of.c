#include "peregrine.h"
#include <stdlib.h>
int main(void) {
pg_out(abs(-5) + labs(-6L)); return 0;
}
