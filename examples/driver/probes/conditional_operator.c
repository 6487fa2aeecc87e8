#include "peregrine.h"

int main(void) {
long n = pg_in_len(); pg_out(n > 0 ? 1 : 2); return 0;
}
