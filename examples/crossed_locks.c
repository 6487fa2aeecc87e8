/* Two threads take two locks in opposite order. Where each has taken its first before the other takes its second, neither
   goes on: the run ends by the trap Deadlock. */
#include "peregrine.h"
#include <pthread.h>

static pthread_mutex_t locks[2];
static int64_t sums[2];

static int64_t total(void) {
    int64_t found = 0;
    for (int64_t i = 0; i < pg_in_len(); i++)
        found += pg_in(i);
    return found;
}

static void *add(void *argument) {
    long mine = (long)argument, other = 1 - mine;
    pthread_mutex_lock(&locks[mine]);
    int64_t found = total();
    pthread_mutex_lock(&locks[other]);
    sums[mine] += found;
    sums[other] -= found;
    pthread_mutex_unlock(&locks[other]);
    pthread_mutex_unlock(&locks[mine]);
    return NULL;
}

int main(void) {
    pthread_t threads[2];
    for (long i = 0; i < 2; i++) {
        pthread_mutex_init(&locks[i], NULL);
        pthread_create(&threads[i], NULL, add, (void *)i);
    }
    for (int i = 0; i < 2; i++) {
        pthread_join(threads[i], NULL);
        pg_out(sums[i]);
    }
    return 0;
}
