#include <stdio.h>

int main(void) {
int n;
scanf("%d", &n); // refused here
return n;
}
