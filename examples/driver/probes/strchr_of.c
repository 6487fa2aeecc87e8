#include "peregrine.h"
#include <string.h>
int main(void) {
pg_out(*strchr("hello", 108)); return 0;
}
