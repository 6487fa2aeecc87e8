/* A writer publishes the numbers one by one, and two readers wait for each and add up what they read. */
#include "peregrine.h"
#include <pthread.h>
#include <stdio.h>

static pthread_mutex_t lock = PTHREAD_MUTEX_INITIALIZER;
static pthread_cond_t published = PTHREAD_COND_INITIALIZER, read_by_all = PTHREAD_COND_INITIALIZER;
static long number;
static int64_t round_number;
static int readers_left;

static void *reader(void *of) {
    long sum = 0;
    (void)of;
    for (int64_t round = 1; round <= pg_in_len(); round++) {
        pthread_mutex_lock(&lock);
        while (round_number < round)
            pthread_cond_wait(&published, &lock);
        sum += number;
        readers_left--;
        if (readers_left == 0)
            pthread_cond_signal(&read_by_all);
        pthread_mutex_unlock(&lock);
    }
    return (void *)sum;
}

int main(void) {
    pthread_t readers[2];
    for (int i = 0; i < 2; i++)
        pthread_create(&readers[i], NULL, reader, NULL);
    for (int64_t i = 0; i < pg_in_len(); i++) {
        pthread_mutex_lock(&lock);
        number = pg_in(i);
        round_number = i + 1;
        readers_left = 2;
        pthread_cond_broadcast(&published);
        while (readers_left > 0)
            pthread_cond_wait(&read_by_all, &lock);
        pthread_mutex_unlock(&lock);
    }
    for (int i = 0; i < 2; i++) {
        void *sum;
        pthread_join(readers[i], &sum);
        printf("reader %d read %ld\n", i, (long)sum);
    }
    return 0;
}
