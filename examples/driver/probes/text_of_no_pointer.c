#include "peregrine.h"
#include <stdio.h>
static void told(const char *s) {
    printf("%d numbers\n%s\n", (int)pg_in_len(), s); // trap here
}
int main(void) {
    told("abc");
    told((const char *)(pg_in(0) + 8));
    return 0;
}
