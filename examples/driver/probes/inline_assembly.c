#include "peregrine.h"

int main(void) {
__asm__("nop"); // refused here
return 0;
}
