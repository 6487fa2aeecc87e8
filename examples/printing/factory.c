/* One thread makes parts of these weights and another packs them, over a shelf of three; the last line tells of both. */
#include "peregrine.h"
#include <pthread.h>
#include <stdio.h>

#define SHELF 3

static pthread_mutex_t lock = PTHREAD_MUTEX_INITIALIZER;
static pthread_cond_t has_room = PTHREAD_COND_INITIALIZER, has_parts = PTHREAD_COND_INITIALIZER;
static long shelf[SHELF];
static int64_t made, packed;

static void *make(void *of) {
    for (int64_t i = 0; i < pg_in_len(); i++) {
        pthread_mutex_lock(&lock);
        while (made - packed == SHELF)
            pthread_cond_wait(&has_room, &lock);
        shelf[made % SHELF] = pg_in(i);
        made++;
        pthread_cond_signal(&has_parts);
        pthread_mutex_unlock(&lock);
    }
    return of;
}

static void *pack(void *of) {
    long weight = 0, heavy = 0;
    for (int64_t i = 0; i < pg_in_len(); i++) {
        pthread_mutex_lock(&lock);
        while (made == packed)
            pthread_cond_wait(&has_parts, &lock);
        long part = shelf[packed % SHELF];
        packed++;
        pthread_cond_signal(&has_room);
        pthread_mutex_unlock(&lock);
        weight += part;
        heavy += part > 90;
    }
    printf("packed %ld, of which %ld heavy\n", weight, heavy);
    return of;
}

int main(void) {
    pthread_t maker, packer;
    pthread_create(&maker, NULL, make, NULL);
    pthread_create(&packer, NULL, pack, NULL);
    pthread_join(maker, NULL);
    pthread_join(packer, NULL);
    printf("made %ld\n", (long)made);
    return 0;
}
