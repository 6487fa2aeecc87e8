#include "peregrine.h"
extern int other;
int main(void) {
    pg_out(3);
    pg_out(other); // refused here
    return 0;
}
