#include <limits.h>
#include <stdio.h>

int main(void) {
printf("%d %i %u\n", INT_MIN, INT_MAX, UINT_MAX); printf("%ld\n%lu %lu\n", LONG_MIN, ULONG_MAX, 1ul << 63); printf("%hhd %hd %hhu %hu\n", 300, 70000, 300, 70000); return 0;
}
