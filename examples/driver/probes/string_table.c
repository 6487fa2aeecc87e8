#include "peregrine.h"
static const char *names[] = {"a", "b", "c"};
int main(void) {
pg_out(names[1][0]); return 0;
}
