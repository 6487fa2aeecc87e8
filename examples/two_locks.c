/* Two threads add the input's numbers to one sum, each under a lock of its own: a race, which the turns of most runs
   hide, since some turn stands between the two. */
#include "peregrine.h"
#include <pthread.h>

static pthread_mutex_t one = PTHREAD_MUTEX_INITIALIZER, other = PTHREAD_MUTEX_INITIALIZER;
static int64_t total;

static void *add_first(void *of) {
    for (int64_t i = 0; i < pg_in_len(); i += 2) {
        pthread_mutex_lock(&one);
        total += pg_in(i); // race here
        pthread_mutex_unlock(&one);
    }
    return of;
}

static void *add_second(void *of) {
    for (int64_t i = 1; i < pg_in_len(); i += 2) {
        pthread_mutex_lock(&other);
        total += pg_in(i); // race here
        pthread_mutex_unlock(&other);
    }
    return of;
}

int main(void) {
    pthread_t threads[2];
    pthread_create(&threads[0], NULL, add_first, NULL);
    pthread_create(&threads[1], NULL, add_second, NULL);
    pthread_join(threads[0], NULL);
    pthread_join(threads[1], NULL);
    pg_out(total);
    return 0;
}
