#include "peregrine.h"
struct __attribute__((packed)) s { int a; int b; };
int main(void) {
static struct s x = {1, 2}; pg_out(x.b + sizeof x); return 0;
}
