#include "peregrine.h"

int main(void) {
long a[5]; pg_out(&a[4] - &a[1]); return 0;
}
