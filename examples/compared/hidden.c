/* A race on a way that is seldom taken: where the lock is held, the other thread goes on without it. */
#include "peregrine.h"
#include <pthread.h>

static pthread_mutex_t lock = PTHREAD_MUTEX_INITIALIZER;
static volatile int64_t place; // raced

static void *store(void *of) {
    pthread_mutex_lock(&lock);
    place = pg_in(0);
    pthread_mutex_unlock(&lock);
    return of;
}

static void *try_to_store(void *of) {
    int is_mine = pthread_mutex_trylock(&lock) == 0;
    place = pg_in(1);
    if (is_mine)
        pthread_mutex_unlock(&lock);
    return of;
}

int main(void) {
    pthread_t one, other;
    pthread_create(&one, NULL, store, NULL);
    pthread_create(&other, NULL, try_to_store, NULL);
    pthread_join(one, NULL);
    pthread_join(other, NULL);
    pg_out(place == pg_in(0) || place == pg_in(1));
    return 0;
}
