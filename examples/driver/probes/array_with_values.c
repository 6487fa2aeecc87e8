#include "peregrine.h"

int main(void) {
long a[4] = {1, 2, 3, 4}; long s = 0; for (int i = 0; i < 4; i++) s += a[i]; pg_out(s); return 0;
}
