#include "peregrine.h"
struct s { int a, b; };
int main(void) {
struct s x = {.b = 4}; int a[5] = {[3] = 7}; pg_out(x.a + x.b + a[3]); return 0;
}
