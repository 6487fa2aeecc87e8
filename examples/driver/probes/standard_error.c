#include <stdio.h>

int main(void) {
    fputs("text", stderr); // refused here
    return 0;
}
