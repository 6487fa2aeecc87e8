#include "peregrine.h"

struct s { // refused here
    unsigned a : 10, b : 14;
};
int main(void) {
    struct s x = {1, 2};
    pg_out(x.a + x.b);
    return 0;
}
