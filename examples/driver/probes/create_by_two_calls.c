#include "peregrine.h"
#include <pthread.h>
static void *one(void *of) { pg_out(1); return of; }
static void *other(void *of) { pg_out(2); return of; }
int main(void) {
    pthread_t thread;
    if (pg_in(0))
        pthread_create(&thread, NULL, one, NULL);
    else
        pthread_create(&thread, NULL, other, NULL);
    pthread_join(thread, NULL);
    return 0;
}
