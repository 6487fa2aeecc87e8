#include "peregrine.h"

int main(void) {
long n = pg_in_len(); pg_out(n == 0 && pg_in(0) == 0 || n > 5); return 0;
}
