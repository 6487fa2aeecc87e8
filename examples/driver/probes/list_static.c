#include "peregrine.h"
struct n { long v; struct n *next; }; static struct n second = {2, 0}; static struct n first = {1, &second};
int main(void) {
pg_out(first.next->v); return 0;
}
