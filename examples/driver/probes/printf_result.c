#include <stdio.h>

int main(void) {
int n = printf("abc\n"); printf("%d\n", n); return 0;
}
