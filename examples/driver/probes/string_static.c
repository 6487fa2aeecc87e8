#include "peregrine.h"
static char *name = "hello";
int main(void) {
pg_out(name[1]); return 0;
}
