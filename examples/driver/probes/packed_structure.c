#include "peregrine.h"
struct __attribute__((packed)) s { char a; int b; }; // refused here
int main(void) {
struct s x = {1, 2}; pg_out(x.b + sizeof x); return 0;
}
