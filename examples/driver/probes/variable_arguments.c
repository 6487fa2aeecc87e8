#include "peregrine.h"
#include <stdarg.h>
static int sum(int n, ...) {
va_list l;
va_start(l, n); // refused here
int s = 0;
while (n--)
    s += va_arg(l, int);
va_end(l);
return s;
}
int main(void) {
pg_out(sum(2, 3, 4));
return 0;
}
