#include "peregrine.h"
struct half { int freeze, align; };
struct i128 { long fence; };
static int cmpxchg = 3, i128 = 4, metadata = 5, undef = 6, nonnull = 7;
static int returned[2] = {1, 2};
static int half(struct half h) { return h.freeze + h.align; }
static void fence(long *n) { *n += 1; }
static int resume(int n) { return n > 0 ? n - 1 : 0; }
static int invoke(int n) { return n * 2; }
static int select(int a, int b) { return a < b ? a : b; }
static long ptrtoint(int *p) { return *p; }
static int addrspacecast(int n) { return n + 10; }
static int sub(int a, int b) { return a - b; }
static int atomicrmw(struct i128 *p) { return (int)p->fence; }
static void readonly(int *noundef) { *noundef += cmpxchg; }
int main(void) {
    struct half h = {1, 2};
    struct i128 wide = {6};
    fence(&wide.fence);
    readonly(&i128);
    readonly(returned);
    pg_out(half(h));
    pg_out(resume(3) + invoke(4) + select(5, 2));
    pg_out(ptrtoint(&i128) + addrspacecast(1) + sub(9, 4));
    pg_out(atomicrmw(&wide) + metadata + undef + nonnull + returned[0]);
    goto va_arg;
va_arg:
    return 0;
}
