#include "peregrine.h"
#include <string.h>
int main(void) {
long a[3] = {1, 2, 3}, b[3]; memcpy(b, a, sizeof a); pg_out(b[2]); return 0;
}
