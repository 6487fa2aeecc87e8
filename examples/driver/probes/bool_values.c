#include "peregrine.h"
#include <stdbool.h>
int main(void) {
bool b = pg_in(0) > 3; pg_out(b); b = 7; pg_out(b); return 0;
}
