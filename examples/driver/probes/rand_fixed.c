#include "peregrine.h"
#include <stdlib.h>
int main(void) {
srand(3); int a = rand(); srand(3); pg_out(a == rand()); return 0;
}
