#include <stdio.h>

int main(void) {
const char *f = "%d\n";
printf(f, 3); // refused here
return 0;
}
