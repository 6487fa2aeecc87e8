/* The fewest multiplications of a chain of matrices, whose sides are the numbers. Two threads share each diagonal, and
   meet at a barrier behind it. */
#include "peregrine.h"
#include <pthread.h>
#include <stdio.h>

#define MOST 16

static long cost[MOST][MOST];
static pthread_barrier_t diagonal;

static long side(int64_t i) { return pg_in(i) < 0 ? 1 - pg_in(i) : 1 + pg_in(i); }

static void *fill(void *first) {
    int64_t n = pg_in_len() - 1;
    for (int64_t length = 1; length < n; length++) {
        for (int64_t i = (long)first; i + length < n; i += 2) {
            long least = -1;
            for (int64_t k = i; k < i + length; k++) {
                long here = cost[i][k] + cost[k + 1][i + length] + side(i) * side(k + 1) * side(i + length + 1);
                if (least < 0 || here < least)
                    least = here;
            }
            cost[i][i + length] = least;
        }
        pthread_barrier_wait(&diagonal);
    }
    return NULL;
}

int main(void) {
    pthread_t one, other;
    pthread_barrier_init(&diagonal, NULL, 2);
    pthread_create(&one, NULL, fill, (void *)0);
    pthread_create(&other, NULL, fill, (void *)1);
    pthread_join(one, NULL);
    pthread_join(other, NULL);
    printf("%d matrices, at least %ld multiplications\n", (int)pg_in_len() - 1, pg_in_len() > 1 ? cost[0][pg_in_len() - 2] : 0);
    return 0;
}
