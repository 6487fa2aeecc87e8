#include "peregrine.h"
#include <stddef.h>
struct s { char a; long b; };
int main(void) {
pg_out(offsetof(struct s, b)); return 0;
}
