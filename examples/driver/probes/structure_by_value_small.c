#include "peregrine.h"
struct s { int a, b; }; static long sum(struct s x) { return x.a + x.b; }
int main(void) {
struct s x = {1, 2}; pg_out(sum(x)); return 0;
}
