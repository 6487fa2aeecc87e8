#include "peregrine.h"
int main(int argc, char **argv) { pg_out(3); return 0; }
