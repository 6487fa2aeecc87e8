#include "peregrine.h"
#include <time.h>
int main(void) {
pg_out(time(0)); // refused here
return 0;
}
