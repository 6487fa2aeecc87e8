#include "peregrine.h"
#include <pthread.h>
static void *one(void *of) { return of; }
static void *other(void *of) { return of; }
int main(void) {
    pthread_t thread;
    pthread_create(&thread, NULL, pg_in(0) ? one : other, NULL); // refused here
    pthread_join(thread, NULL);
    return 0;
}
