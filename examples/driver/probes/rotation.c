#include "peregrine.h"

int main(void) {
unsigned x = pg_in_len() + 0x80000001u; pg_out((x << 5) | (x >> 27)); return 0;
}
