/* Two threads add to one counter without a lock, so what the other added may be lost. */
#include "peregrine.h"
#include <pthread.h>
#include <stdio.h>

static volatile long total;

static void *add(void *first) {
    for (int64_t i = (long)first; i < pg_in_len(); i += 2)
        total += pg_in(i);
    return NULL;
}

int main(void) {
    pthread_t one, other;
    long wanted = 0;
    for (int64_t i = 0; i < pg_in_len(); i++)
        wanted += pg_in(i);
    pthread_create(&one, NULL, add, (void *)0);
    pthread_create(&other, NULL, add, (void *)1);
    pthread_join(one, NULL);
    pthread_join(other, NULL);
    printf("counted %ld of %ld, lost %ld\n", total, wanted, wanted - total);
    return 0;
}
