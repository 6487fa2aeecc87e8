#include "peregrine.h"
#include <stdio.h>
#include <string.h>
static const char *texts[] = {"<{", "select (i32", "thread_local", "= alias", "float", "external global", "}>", "ptrtoint (", "<{ i32 }>", "; x", "%d %", "@name", "!dbg !3"};
int call(int x) { return x; }
int define(int declare) { return declare; }
struct type { int a; };
int main(void) {
    struct type t = {3};
    for (unsigned i = 0; i < sizeof texts / sizeof *texts; i++) puts(texts[i]);
    printf("<{ %s }> \"quoted\" \\ %d%%\n", "a\tb", call(define(t.a)));
    return 0; }
