#include "peregrine.h"

int main(void) {
char c = 'b'; switch (c) { case 'a': pg_out(1); break; case 'b': pg_out(2); } return 0;
}
