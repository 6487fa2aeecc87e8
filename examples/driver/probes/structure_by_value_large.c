#include "peregrine.h"
struct s { long a[5]; }; static long sum(struct s x) { x.a[0] = 10; return x.a[0] + x.a[4]; }
int main(void) {
struct s x = {{1, 2, 3, 4, 5}}; pg_out(sum(x)); return 0;
}
