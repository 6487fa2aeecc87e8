#include "peregrine.h"

int main(void) {
int i = 0; again: if (i < 3) { pg_out(i); i++; goto again; } return 0;
}
