#include "peregrine.h"
enum e { A, B = 5, C };
int main(void) {
enum e x = B; pg_out(x); return 0;
}
