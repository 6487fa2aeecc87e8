/* Breadth first over a graph whose edge from i leads to the place of number i: two threads share a level, and meet at a
   barrier behind it. How many levels there are hangs on the numbers. */
#include "peregrine.h"
#include <pthread.h>
#include <stdio.h>

#define MOST 64

static int level_of[MOST];
static volatile int is_going;
static pthread_barrier_t meet;

static int64_t target(int64_t i) {
    int64_t n = pg_in(i) % pg_in_len();
    return n < 0 ? n + pg_in_len() : n;
}

static void visit(int64_t first, int level) {
    for (int64_t i = first; i < pg_in_len(); i += 2)
        if (level_of[i] == level && level_of[target(i)] == 0) {
            level_of[target(i)] = level + 1;
            is_going = 1;
        }
}

static void *search(void *first) {
    int level = 1;
    for (int going = 1; going; level++) {
        pthread_barrier_wait(&meet);
        if (!first)
            is_going = 0;
        pthread_barrier_wait(&meet);
        visit((long)first, level);
        pthread_barrier_wait(&meet);
        going = is_going;
    }
    return (void *)(long)level;
}

int main(void) {
    pthread_t one, other;
    void *levels;
    level_of[0] = 1;
    pthread_barrier_init(&meet, NULL, 2);
    pthread_create(&one, NULL, search, (void *)0);
    pthread_create(&other, NULL, search, (void *)1);
    pthread_join(one, &levels);
    pthread_join(other, NULL);
    printf("%ld levels of %ld places\n", (long)levels - 1, (long)pg_in_len());
    return 0;
}
