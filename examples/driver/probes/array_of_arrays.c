#include "peregrine.h"

int main(void) {
int a[3][4] = {{1, 2}, {3}}; pg_out(a[0][1] + a[1][0] + a[2][3]); return 0;
}
