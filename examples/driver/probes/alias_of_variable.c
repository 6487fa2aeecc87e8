#include "peregrine.h"
int one = 3;
extern int other __attribute__((alias("one"))); // refused here
int main(void) {
    pg_out(other);
    return 0;
}
