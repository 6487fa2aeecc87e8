#include "peregrine.h"
#include <stdint.h>
int main(void) {
long x = 3; uintptr_t n = (uintptr_t)&x; pg_out(*(long *)n); return 0;
}
