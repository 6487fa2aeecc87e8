#include <stdio.h>
#include "peregrine.h"

int main(void) {
putchar('a'); putchar('='); pg_print(5); putchar(' '); putchar('b'); putchar('='); pg_print(-3); putchar('\n'); pg_print(INT64_MIN); pg_out(INT64_MAX); return 0;
}
