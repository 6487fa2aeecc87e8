#include "peregrine.h"

int main(void) {
unsigned u = 1u << 31; int s = -8; pg_out(u >> 3); pg_out(s >> 1); return 0;
}
