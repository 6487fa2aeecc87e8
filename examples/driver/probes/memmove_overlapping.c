#include "peregrine.h"
#include <string.h>
int main(void) {
char b[] = "abcdef"; memmove(b + 1, b, 5); for (int i = 0; i < 6; i++) pg_out(b[i]); return 0;
}
