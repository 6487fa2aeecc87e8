#include "peregrine.h"
#include <assert.h>
int main(void) {
assert(pg_in(0) == 9); pg_out(1); return 0;
}
