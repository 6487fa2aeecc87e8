#include "peregrine.h"

int main(void) {
int a[3] = {0}; for (int i = 0; i < 3; i++) pg_out(a[i]); return 0;
}
