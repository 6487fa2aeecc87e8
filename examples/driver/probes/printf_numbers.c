#include <stdio.h>

int main(void) {
printf("%d %ld %lld %u %lu %x\n", -3, 4L, 5LL, 6u, 7ul, 255); return 0;
}
