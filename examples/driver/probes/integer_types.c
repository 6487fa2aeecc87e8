#include "peregrine.h"

int main(void) {
signed char a = -1; unsigned char b = 255; short c = -2; unsigned short d = 65535; pg_out(a + b + c + d); return 0;
}
