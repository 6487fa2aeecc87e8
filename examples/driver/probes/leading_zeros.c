#include "peregrine.h"

int main(void) {
pg_out(__builtin_clz(pg_in_len() + 1)); pg_out(__builtin_ctzl(pg_in_len() + 8)); return 0;
}
