#include "peregrine.h"
static int n;
__attribute__((constructor)) static void begin(void) { // refused here
    n = (int)pg_in(1);
}
int main(void) {
    pg_out(n);
    return 0;
}
