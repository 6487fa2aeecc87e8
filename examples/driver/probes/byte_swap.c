#include "peregrine.h"

int main(void) {
pg_out(__builtin_bswap32(pg_in_len() + 1)); return 0;
}
