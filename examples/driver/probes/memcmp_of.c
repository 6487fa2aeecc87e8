#include "peregrine.h"
#include <string.h>
int main(void) {
long a[2] = {1, 2}, b[2] = {1, 3}; pg_out(memcmp(a, b, 16) < 0); return 0;
}
