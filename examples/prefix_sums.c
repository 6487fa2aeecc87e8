/* The prefix sums of the input: each thread sums up its part, and adds what stands before it. */
#include "peregrine.h"
#include <pthread.h>

#define THREADS 4

static int64_t sums[512], totals[THREADS];
static pthread_barrier_t barrier;

static void *worker(void *number) {
    long t = (long)number;
    int64_t count = pg_in_len(), first = count * t / THREADS, last = count * (t + 1) / THREADS, sum = 0;
    for (int64_t i = first; i < last; i++)
        sums[i] = sum += pg_in(i);
    totals[t] = sum;
    pthread_barrier_wait(&barrier);
    int64_t before = 0;
    for (long u = 0; u < t; u++)
        before += totals[u];
    for (int64_t i = first; i < last; i++)
        sums[i] += before;
    return NULL;
}

int main(void) {
    pthread_t threads[THREADS];
    pthread_barrier_init(&barrier, NULL, THREADS);
    for (long t = 0; t < THREADS; t++)
        pthread_create(&threads[t], NULL, worker, (void *)t);
    for (int t = 0; t < THREADS; t++)
        pthread_join(threads[t], NULL);
    for (int64_t i = 0; i < pg_in_len(); i++)
        pg_out(sums[i]);
    return 0;
}
