#include "peregrine.h"
struct s { long a, b; }; struct s make(long n) { struct s x = {n, n + 1}; return x; }
int main(void) {
struct s x = make(3); pg_out(x.a + x.b); return 0;
}
