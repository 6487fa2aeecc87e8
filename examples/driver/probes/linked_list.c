#include "peregrine.h"
#include <stdlib.h>
struct n { long v; struct n *next; };
int main(void) {
struct n *h = 0; for (long i = 0; i < 3; i++) { struct n *x = malloc(sizeof *x); x->v = i; x->next = h; h = x; } for (; h; h = h->next) pg_out(h->v); return 0;
}
