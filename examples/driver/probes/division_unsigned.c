#include "peregrine.h"

int main(void) {
unsigned long a = -7ul; pg_out(a / 3 % 1000); return 0;
}
