#include "peregrine.h"

int main(void) {
pg_out(__builtin_popcountl(pg_in_len() + 255)); return 0;
}
