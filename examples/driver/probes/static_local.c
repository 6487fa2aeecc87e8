#include "peregrine.h"
static int f(void) { static int n = 5; return n++; }
int main(void) {
f(); f(); pg_out(f()); return 0;
}
