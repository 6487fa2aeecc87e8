#include "peregrine.h"
__attribute__((used)) static int one(int n) { return n; }
__attribute__((used)) static int number = 3;
int main(void) {
    pg_out(number);
    return 0;
}
