#include "peregrine.h"

int main(void) {
long n = 0;
__atomic_fetch_add(&n, 1, __ATOMIC_SEQ_CST); // refused here
pg_out(n);
return 0;
}
