#include "peregrine.h"
#include <string.h>
int main(void) {
long x = 4; long *a[2] = {&x, &x}, *b[2]; memcpy(b, a, sizeof a); pg_out(*b[1]); return 0;
}
