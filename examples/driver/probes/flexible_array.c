#include "peregrine.h"
#include <stdlib.h>
struct v { long n; long a[]; };
int main(void) {
struct v *x = malloc(8 + 24); x->n = 3; x->a[2] = 9; pg_out(x->a[2]); return 0;
}
