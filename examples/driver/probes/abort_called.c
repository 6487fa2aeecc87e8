#include "peregrine.h"
#include <stdlib.h>
int main(void) {
if (pg_in(0)) abort(); pg_out(1); return 0;
}
