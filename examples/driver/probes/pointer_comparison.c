#include "peregrine.h"

int main(void) {
long a[5]; pg_out(&a[1] < &a[2]); return 0;
}
