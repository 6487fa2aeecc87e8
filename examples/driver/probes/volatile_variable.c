#include "peregrine.h"

int main(void) {
volatile int n = 3; n++; pg_out(n); return 0;
}
