#include "peregrine.h"
#include <stdlib.h>
int main(void) {
pg_out(atoi(" -42x") + atol("100")); return 0;
}
