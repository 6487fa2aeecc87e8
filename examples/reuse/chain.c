/* The cheapest order in which a chain of matrices is multiplied: the numbers are their sizes. Threads share the products of
   one length, and meet at a barrier behind it. */
#include "peregrine.h"
#include <pthread.h>
#include <stdio.h>

#define THREADS 2
#define MOST 32

static long sizes[MOST];
static long cost[MOST][MOST];
static int matrices;
static pthread_barrier_t barrier;

static void *work(void *argument) {
    long me = (long)argument;
    for (int length = 2; length <= matrices; length++) {
        for (int i = (int)me; i + length <= matrices; i += THREADS) {
            int j = i + length - 1;
            cost[i][j] = -1;
            for (int k = i; k < j; k++) {
                long c = cost[i][k] + cost[k + 1][j] + sizes[i] * sizes[k + 1] * sizes[j + 1];
                if (cost[i][j] < 0 || c < cost[i][j])
                    cost[i][j] = c;
            }
        }
        pthread_barrier_wait(&barrier);
    }
    return NULL;
}

int main(void) {
    pthread_t threads[THREADS];
    int count = (int)(pg_in_len() < MOST ? pg_in_len() : MOST);
    matrices = count > 0 ? count - 1 : 0;
    for (int i = 0; i < count; i++)
        sizes[i] = (long)(pg_in(i) < 0 ? -pg_in(i) : pg_in(i)) + 1;
    pthread_barrier_init(&barrier, NULL, THREADS);
    for (long i = 0; i < THREADS; i++)
        pthread_create(&threads[i], NULL, work, (void *)i);
    for (int i = 0; i < THREADS; i++)
        pthread_join(threads[i], NULL);
    printf("%d matrices for %ld multiplications\n", matrices, matrices > 1 ? cost[0][matrices - 1] : 0);
    return 0;
}
