#include "peregrine.h"
#include <stdlib.h>
int main(void) {
long *a = calloc(4, 8); pg_out(a[0] + a[3]); free(a); return 0;
}
