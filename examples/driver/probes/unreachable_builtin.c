#include "peregrine.h"

int main(void) {
if (pg_in(0) == 77) __builtin_unreachable(); pg_out(1); return 0;
}
