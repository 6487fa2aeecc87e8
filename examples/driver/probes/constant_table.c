#include "peregrine.h"
static const int primes[] = {2, 3, 5, 7};
int main(void) {
pg_out(primes[3]); return 0;
}
