#include "peregrine.h"

int main(void) {
long s = 0; for (int i = 0; i < 5; i++) for (int j = 0; j < i; j++) { if (j == 2) continue; s += i * j; } pg_out(s); return 0;
}
