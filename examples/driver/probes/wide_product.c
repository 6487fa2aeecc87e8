#include "peregrine.h"

int main(void) {
unsigned __int128 x = (unsigned __int128)pg_in(0) * 3; // refused here
pg_out((long)(x >> 64));
return 0;
}
