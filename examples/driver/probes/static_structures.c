#include "peregrine.h"
struct s { int x; char y; }; static struct s t[3] = {{1, 'a'}, {2, 'b'}};
int main(void) {
pg_out(t[1].x + t[1].y); return 0;
}
