#include "peregrine.h"
static long one(long x) { return x; } static long two(long x) { return x + 1; }
int main(void) {
long (*f)(long) = pg_in(0) ? one : two;
pg_out(f(1)); // refused here
return 0;
}
