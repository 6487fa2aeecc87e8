#include "peregrine.h"
struct s { int a, b; };
int main(void) {
struct s *x = &(struct s){1, 2}; pg_out(x->b); return 0;
}
