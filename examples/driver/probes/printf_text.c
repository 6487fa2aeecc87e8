#include <stdio.h>

int main(void) {
char c = 33; printf("%s%c 100%%\n", "hi", c); return 0;
}
