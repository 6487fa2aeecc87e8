/* Two threads add up a half of the numbers each. */
#include "peregrine.h"
#include <pthread.h>
#include <stdio.h>

static long low_sum, high_sum;

static long add_up(int64_t from, int64_t to) {
    long sum = 0;
    for (int64_t i = from; i < to; i++)
        sum += pg_in(i);
    return sum;
}

static void *low(void *of) {
    low_sum = add_up(0, pg_in_len() / 2);
    return of;
}

static void *high(void *of) {
    high_sum = add_up(pg_in_len() / 2, pg_in_len());
    return of;
}

int main(void) {
    pthread_t one, other;
    pthread_create(&one, NULL, low, NULL);
    pthread_create(&other, NULL, high, NULL);
    pthread_join(one, NULL);
    pthread_join(other, NULL);
    printf("sum %ld and %ld, together %ld\n", low_sum, high_sum, low_sum + high_sum);
    return 0;
}
