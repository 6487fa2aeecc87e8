#include "peregrine.h"
#include <string.h>
int main(void) {
pg_out(strcmp("a", "b") < 0); pg_out(strncmp("abc", "abd", 2)); return 0;
}
