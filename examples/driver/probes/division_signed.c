#include "peregrine.h"

int main(void) {
int a = -7; pg_out(a / 2); pg_out(a % 2); return 0;
}
