#include "peregrine.h"

void main(void) { // refused here
    pg_out(3);
}
