#include "peregrine.h"
#include <pthread.h>
static void *work(void *of) { return of; }
int main(void) {
    pthread_t thread;
    void *(*begin)(void *) = work;
    pthread_create(&thread, NULL, begin, NULL); // refused here
    pthread_join(thread, NULL);
    return 0;
}
