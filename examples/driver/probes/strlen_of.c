#include "peregrine.h"
#include <string.h>
int main(void) {
pg_out(strlen("hello")); return 0;
}
