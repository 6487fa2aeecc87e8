#include "peregrine.h"
static int t[100] = {1, 2};
int main(void) {
pg_out(t[1] + t[99]); return 0;
}
