#include "peregrine.h"

int main(void) {
long n = pg_in_len() + 2;
long a[n]; // refused here
a[1] = 3;
pg_out(a[1]);
return 0;
}
