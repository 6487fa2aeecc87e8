#include "peregrine.h"

struct s {
    unsigned a : 10, b : 14, : 8;
};
int main(void) {
    struct s x = {1, 2};
    x.b = (unsigned)pg_in(1);
    pg_out(x.a + x.b);
    return 0;
}
