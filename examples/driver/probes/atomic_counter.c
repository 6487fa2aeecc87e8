#include "peregrine.h"
#include <stdatomic.h>
int main(void) {
atomic_long n = 0;
n++; // refused here
pg_out(n);
return 0;
}
