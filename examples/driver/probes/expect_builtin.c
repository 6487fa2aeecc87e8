#include "peregrine.h"

int main(void) {
if (__builtin_expect(pg_in(0) == 0, 1)) pg_out(1); return 0;
}
