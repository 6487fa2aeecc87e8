#include "peregrine.h"
#include <stdint.h>
static long x; static uintptr_t word = (uintptr_t)&x;
int main(void) {
pg_out(word != 0); return 0;
}
