#include "peregrine.h"
struct s { long a; int b; char c; };
int main(void) {
struct s x = {1, 2, 3}, y; y = x; pg_out(y.a + y.b + y.c); return 0;
}
