#include "peregrine.h"
static long a[4] = {1, 2, 3, 4}; static long *at = &a[2];
int main(void) {
pg_out(*at); return 0;
}
