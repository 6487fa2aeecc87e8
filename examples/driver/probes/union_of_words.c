#include "peregrine.h"
union u { long l; unsigned char c[8]; };
int main(void) {
union u x; x.l = 258; pg_out(x.c[0] + x.c[1]); return 0;
}
