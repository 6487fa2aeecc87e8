#include "peregrine.h"

int main(void) {
int a, b; a = (b = 2, b + 1); pg_out(a); return 0;
}
