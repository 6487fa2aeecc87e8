#include "peregrine.h"
struct s { char a; long b; char c; };
int main(void) {
pg_out(sizeof(struct s)); return 0;
}
