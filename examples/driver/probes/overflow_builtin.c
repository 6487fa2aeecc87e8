#include "peregrine.h"

int main(void) {
int r;
pg_out(__builtin_add_overflow(2147483647, (int)pg_in_len() + 1, &r)); // refused here
return 0;
}
