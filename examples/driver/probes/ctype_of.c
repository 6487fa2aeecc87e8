#include "peregrine.h"
#include <ctype.h>
int main(void) {
pg_out(isdigit('5') != 0); pg_out(toupper('a')); return 0;
}
