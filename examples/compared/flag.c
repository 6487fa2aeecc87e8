/* A number is handed over by a flag without a lock: the flag is raced, and the number too where the flag is seen. */
#include "peregrine.h"
#include <pthread.h>

static volatile int64_t ready;  // raced
static volatile int64_t number; // raced

static void *give(void *of) {
    number = pg_in(0);
    ready = 1;
    return of;
}

int main(void) {
    pthread_t giver;
    pthread_create(&giver, NULL, give, NULL);
    int64_t rounds = 0;
    while (!ready && rounds < 100000)
        rounds++;
    pg_out(ready ? number : 0);
    pthread_join(giver, NULL);
    return 0;
}
