#include "peregrine.h"
static long one(long x) { return x; } static long two(long x) { return x + 1; } static long (*t[2])(long) = {one, two};
int main(void) {
pg_out(t[1](3)); // refused here
return 0;
}
