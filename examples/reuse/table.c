/* A table that is made at its first use: whoever finds it missing takes the lock, looks again and makes it. Two threads look
   up the numbers in it. */
#include "peregrine.h"
#include <pthread.h>
#include <stdio.h>
#include <stdlib.h>

#define THREADS 2
#define SIZE 64

static unsigned *table;
static pthread_mutex_t lock = PTHREAD_MUTEX_INITIALIZER;
static int times_made;
static unsigned sums[THREADS];

/* the remainders of a check sum by eight bits, as many codes take them from a table */
static unsigned entry(unsigned n) {
    for (int bit = 0; bit < 6; bit++)
        n = n & 1 ? n >> 1 ^ 0xb8u : n >> 1;
    return n;
}

static unsigned *get_table(void) {
    if (table == NULL) {
        pthread_mutex_lock(&lock);
        if (table == NULL) {
            unsigned *made = malloc(SIZE * sizeof *made);
            for (unsigned i = 0; i < SIZE; i++)
                made[i] = entry(i);
            times_made++;
            table = made;
        }
        pthread_mutex_unlock(&lock);
    }
    return table;
}

static void *check(void *argument) {
    long me = (long)argument;
    unsigned sum = 0;
    for (int64_t i = me; i < pg_in_len(); i += THREADS)
        sum = sum >> 6 ^ get_table()[(sum ^ (unsigned)pg_in(i)) % SIZE];
    sums[me] = sum;
    return NULL;
}

int main(void) {
    pthread_t threads[THREADS];
    for (long i = 0; i < THREADS; i++)
        pthread_create(&threads[i], NULL, check, (void *)i);
    for (int i = 0; i < THREADS; i++) {
        pthread_join(threads[i], NULL);
        printf("sum %d is %u\n", i, sums[i]);
    }
    printf("made %d times\n", times_made);
    return 0;
}
