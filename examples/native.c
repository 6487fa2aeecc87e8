/* The calls of a program's input and output, so that an example can be built and run natively:
   cc -Dmain=program -c counter.c && cc -o counter counter.o native.c -lpthread && ./counter 3 5 */
#include <inttypes.h>
#include <stdio.h>
#include <stdlib.h>

int64_t pg_in(int64_t i);
int64_t pg_in_len(void);
void pg_out(int64_t v);
void pg_print(int64_t v);
int program(void);

static int count;
static char **words;

int64_t pg_in(int64_t i) { return i >= 0 && i < count ? strtoll(words[i], NULL, 10) : 0; }

int64_t pg_in_len(void) { return count; }

void pg_out(int64_t v) { printf("%" PRId64 "\n", v); }

void pg_print(int64_t v) { printf("%" PRId64, v); }

/* the example's own main, by the name that the build gives it */
int main(int argc, char **argv) {
    count = argc - 1;
    words = argv + 1;
    return program();
}
