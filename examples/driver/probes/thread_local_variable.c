#include "peregrine.h"
static _Thread_local int n; // refused here
int main(void) {
n = 3;
pg_out(n);
return 0;
}
