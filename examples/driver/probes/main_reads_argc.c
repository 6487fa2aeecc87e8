#include "peregrine.h"
int main(int argc, char **argv) {
pg_out(argc); // refused here
return 0;
}
