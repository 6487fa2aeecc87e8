/* Three threads and a barrier: in each round every thread replaces its number by the sum of all three of
   the round before, and the last to arrive prints it. */
#include <pthread.h>

#define THREADS 3
#define ROUNDS 4

long pg_in(long i);
void pg_out(long v);

static pthread_barrier_t barrier;
static long numbers[2][THREADS];

static long total(const long *from) {
    long sum = 0;
    for (int i = 0; i < THREADS; i++)
        sum += from[i];
    return sum;
}

static long places[THREADS];

static void *worker(void *place) {
    long me = *(long *)place;
    for (int round = 0; round < ROUNDS; round++) {
        long *from = numbers[round % 2], *to = numbers[(round + 1) % 2];
        to[me] = total(from);
        if (pthread_barrier_wait(&barrier) == PTHREAD_BARRIER_SERIAL_THREAD)
            pg_out(to[me]);
        pthread_barrier_wait(&barrier);
    }
    return NULL;
}

int main(void) {
    pthread_t threads[THREADS];
    pthread_barrier_init(&barrier, NULL, THREADS);
    for (int t = 0; t < THREADS; t++) {
        places[t] = t;
        numbers[0][t] = pg_in(t);
    }
    for (int t = 0; t < THREADS; t++)
        pthread_create(&threads[t], NULL, worker, &places[t]);
    for (int t = 0; t < THREADS; t++)
        pthread_join(threads[t], NULL);
    pthread_barrier_destroy(&barrier);
    return 0;
}
