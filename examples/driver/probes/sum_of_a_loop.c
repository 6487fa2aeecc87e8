#include "peregrine.h"
static long sum(long n) {
    long s = 0;
    for (long i = 0; i < n; i++)
        s += i;
    return s;
}
static long squares(long n) {
    long s = 0;
    for (long i = 0; i < n; i++)
        s += i * i;
    return s;
}
int main(void) {
    pg_out(sum(pg_in(1)));
    pg_out(squares(pg_in(1) + 4));
    return 0;
}
