#include "peregrine.h"
#include <pthread.h>
#include <semaphore.h>
static void *f(void *x) { return (void *)(long)(pthread_self() != 0); }
int main(void) {
pthread_t a; pthread_create(&a, 0, f, 0); void *q; pthread_join(a, &q); pg_out((long)q); pg_out(pthread_equal(pthread_self(), pthread_self()) != 0); return 0;
}
