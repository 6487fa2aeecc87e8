#include "peregrine.h"
#include <stdlib.h>
int main(void) {
long *a = malloc(16); a[1] = 5; a = realloc(a, 64); pg_out(a[1]); return 0;
}
