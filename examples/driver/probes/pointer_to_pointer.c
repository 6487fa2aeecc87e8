#include "peregrine.h"

int main(void) {
long x = 3, *y = &x, **z = &y; **z = 4; pg_out(x); return 0;
}
