#include "peregrine.h"
struct s { unsigned a : 3, b : 4; int c : 9; };
int main(void) {
struct s x = {0}; x.a = 5; x.b = 3; pg_out(x.a * 10 + x.b); return 0;
}
