#include "peregrine.h"

int main(void) {
char b[8] = "abc"; pg_out(b[2] + b[3]); return 0;
}
