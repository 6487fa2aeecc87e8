#include "peregrine.h"
static long divided(long a, long b) {
    long n = a;
    if (b < 3)
        n = a / b; // trap here
    return n;
}
int main(void) {
    pg_out(divided(7, 4));
    pg_out(divided(7, pg_in(0)));
    return 0;
}
