/* Two threads ask a table of squares that is made at its first use, under a lock. */
#include "peregrine.h"
#include <pthread.h>
#include <stdio.h>

static pthread_mutex_t lock = PTHREAD_MUTEX_INITIALIZER;
static int is_made;
static long squares[16];

static long square(int64_t n) {
    pthread_mutex_lock(&lock);
    if (!is_made)
        for (int i = 0; i < 16; i++)
            squares[i] = (long)i * i;
    is_made = 1;
    pthread_mutex_unlock(&lock);
    return squares[n & 15];
}

static void *sum_of(void *first) {
    long sum = 0;
    for (int64_t i = (long)first; i < pg_in_len(); i += 2)
        sum += square(pg_in(i));
    return (void *)sum;
}

int main(void) {
    pthread_t threads[2];
    for (long i = 0; i < 2; i++)
        pthread_create(&threads[i], NULL, sum_of, (void *)i);
    for (int i = 0; i < 2; i++) {
        void *sum;
        pthread_join(threads[i], &sum);
        printf("thread %d: the squares come to %ld\n", i, (long)sum);
    }
    return 0;
}
