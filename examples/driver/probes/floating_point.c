#include "peregrine.h"

int main(void) {
double d = pg_in(0) + 1.5; // refused here
pg_out((long)d);
return 0;
}
