/* Two threads count without a lock. */
#include "peregrine.h"
#include <pthread.h>

static volatile int64_t count; // raced

static void *add(void *of) {
    for (int64_t i = 0; i < pg_in_len(); i++)
        count++;
    return of;
}

int main(void) {
    pthread_t one, other;
    pthread_create(&one, NULL, add, NULL);
    pthread_create(&other, NULL, add, NULL);
    pthread_join(one, NULL);
    pthread_join(other, NULL);
    pg_out(count);
    return 0;
}
