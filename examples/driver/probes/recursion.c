#include "peregrine.h"
static long fib(long n) { return n < 2 ? n : fib(n - 1) + fib(n - 2); }
int main(void) {
pg_out(fib(10)); return 0;
}
