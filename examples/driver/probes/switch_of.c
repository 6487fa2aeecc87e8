#include "peregrine.h"

int main(void) {
switch (pg_in(0)) { case 0: pg_out(10); break; case 5: pg_out(20); break; default: pg_out(30); } return 0;
}
