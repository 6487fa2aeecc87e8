/* A parallel radix sort of the input's numbers, four bits a round: each thread counts the digits of its part, the
   counts become places, and each thread moves its part's numbers there. */
#include "peregrine.h"
#include <pthread.h>
#include <stdint.h>
#include <stdlib.h>

#define THREADS 3
#define DIGITS 16
#define ROUNDS 4

static uint64_t *from, *to;
static int64_t count;
static int64_t places[THREADS][DIGITS];
static pthread_barrier_t barrier;

static int digit(uint64_t n, int round) { return (int)(n >> (4 * round) & (DIGITS - 1)); }

static void count_digits(long t, int64_t first, int64_t last, int round) {
    for (int d = 0; d < DIGITS; d++)
        places[t][d] = 0;
    for (int64_t i = first; i < last; i++)
        places[t][digit(from[i], round)]++;
}

/* from how often each thread has a digit to where its first number with it goes */
static void find_places(void) {
    int64_t next = 0;
    for (int d = 0; d < DIGITS; d++)
        for (int t = 0; t < THREADS; t++) {
            int64_t here = places[t][d];
            places[t][d] = next;
            next += here;
        }
}

static void *sort(void *number) {
    long t = (long)number;
    int64_t first = count * t / THREADS, last = count * (t + 1) / THREADS;
    for (int round = 0; round < ROUNDS; round++) {
        count_digits(t, first, last, round);
        if (pthread_barrier_wait(&barrier) == PTHREAD_BARRIER_SERIAL_THREAD)
            find_places();
        pthread_barrier_wait(&barrier);
        for (int64_t i = first; i < last; i++)
            to[places[t][digit(from[i], round)]++] = from[i];
        if (pthread_barrier_wait(&barrier) == PTHREAD_BARRIER_SERIAL_THREAD) {
            uint64_t *old = from;
            from = to;
            to = old;
        }
        pthread_barrier_wait(&barrier);
    }
    return NULL;
}

int main(void) {
    count = pg_in_len();
    from = malloc((size_t)count * sizeof *from);
    to = malloc((size_t)count * sizeof *to);
    for (int64_t i = 0; i < count; i++)
        from[i] = (uint64_t)pg_in(i) & 0xffff;
    pthread_barrier_init(&barrier, NULL, THREADS);
    pthread_t threads[THREADS];
    for (long t = 0; t < THREADS; t++)
        pthread_create(&threads[t], NULL, sort, (void *)t);
    for (int t = 0; t < THREADS; t++)
        pthread_join(threads[t], NULL);
    for (int64_t i = 0; i < count; i++)
        pg_out((int64_t)from[i]);
    return 0;
}
