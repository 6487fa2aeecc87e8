#include "peregrine.h"
#include <stdlib.h>
void f(void) { exit(3); } // refused here
int main(void) {
f();
return 0;
}
