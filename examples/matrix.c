/* The third power of a matrix of the input's numbers, its rows shared out to threads that meet at a barrier between
   the two products. */
#include "peregrine.h"
#include <pthread.h>

#define SIZE 4
#define THREADS 2

static int64_t a[SIZE][SIZE], square[SIZE][SIZE], cube[SIZE][SIZE];
static pthread_barrier_t barrier;

static void product(int64_t to[SIZE][SIZE], int64_t x[SIZE][SIZE], int64_t y[SIZE][SIZE], int first) {
    for (int i = first; i < SIZE; i += THREADS)
        for (int j = 0; j < SIZE; j++) {
            int64_t sum = 0;
            for (int k = 0; k < SIZE; k++)
                sum += x[i][k] * y[k][j];
            to[i][j] = sum;
        }
}

static void *worker(void *number) {
    product(square, a, a, (int)(long)number);
    pthread_barrier_wait(&barrier);
    product(cube, square, a, (int)(long)number);
    return NULL;
}

int main(void) {
    for (int i = 0; i < SIZE * SIZE; i++)
        a[i / SIZE][i % SIZE] = pg_in(i);
    pthread_barrier_init(&barrier, NULL, THREADS);
    pthread_t threads[THREADS];
    for (long t = 0; t < THREADS; t++)
        pthread_create(&threads[t], NULL, worker, (void *)t);
    for (int t = 0; t < THREADS; t++)
        pthread_join(threads[t], NULL);
    for (int i = 0; i < SIZE; i++)
        pg_out(cube[i][i]);
    return 0;
}
