#include "peregrine.h"
static union { long l; int i; } x = {7};
int main(void) {
pg_out(x.i); return 0;
}
