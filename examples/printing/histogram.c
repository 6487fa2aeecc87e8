/* Two threads count how many numbers are in each of four classes; each has counts of its own. */
#include "peregrine.h"
#include <pthread.h>
#include <stdio.h>

#define CLASSES 4

static int low_counts[CLASSES], high_counts[CLASSES];

static int class_of(int64_t n) { return n < 0 ? 0 : n < 50 ? 1 : n < 100 ? 2 : 3; }

static void *count_low(void *of) {
    for (int64_t i = 0; i < pg_in_len() / 2; i++)
        low_counts[class_of(pg_in(i))]++;
    return of;
}

static void *count_high(void *of) {
    for (int64_t i = pg_in_len() / 2; i < pg_in_len(); i++)
        high_counts[class_of(pg_in(i))]++;
    return of;
}

int main(void) {
    pthread_t one, other;
    pthread_create(&one, NULL, count_low, NULL);
    pthread_create(&other, NULL, count_high, NULL);
    pthread_join(one, NULL);
    pthread_join(other, NULL);
    for (int i = 0; i < CLASSES; i++)
        printf("class %d: %d\n", i, low_counts[i] + high_counts[i]);
    return 0;
}
