#include "peregrine.h"

int main(void) {
int i = 0; do pg_out(i); while (++i < 2); return 0;
}
