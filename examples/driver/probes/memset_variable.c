#include "peregrine.h"
#include <string.h>
int main(void) {
char b[16]; memset(b, 7, pg_in_len() + 3); pg_out(b[2]); return 0;
}
