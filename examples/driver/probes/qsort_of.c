#include "peregrine.h"
#include <stdlib.h>
static int less(const void *a, const void *b) { return *(const int *)a - *(const int *)b; }
int main(void) {
int a[5] = {3, 1, 2, 5, 4}; qsort(a, 5, sizeof *a, less); for (int i = 0; i < 5; i++) pg_out(a[i]); return 0;
}
