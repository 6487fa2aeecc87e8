#include "peregrine.h"
#include <string.h>
int main(void) {
char b[16]; strcpy(b, "ab"); strcat(b, "cd"); pg_out(strlen(b)); pg_out(b[3]); return 0;
}
