#include "peregrine.h"

static char large[4 << 20]; // refused here
int main(void) {
    large[pg_in(1)] = 3;
    pg_out(large[5]);
    return 0;
}
