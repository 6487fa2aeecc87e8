#include "peregrine.h"
struct s { long a[5]; }; struct s make(long n) { struct s x = {{0, 0, 0, 0, n}}; return x; }
int main(void) {
struct s x = make(3); pg_out(x.a[4]); return 0;
}
