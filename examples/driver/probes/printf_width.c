#include <stdio.h>

int main(void) {
printf("[%5d] [%05d] [%2x]\n", -42, -42, 10); return 0;
}
