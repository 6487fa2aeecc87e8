#include "peregrine.h"
int main(void) {
    char large[4 << 20]; // refused here
    large[pg_in(1)] = 3;
    pg_out(large[5]);
    return 0;
}
