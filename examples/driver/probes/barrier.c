#include "peregrine.h"
#include <pthread.h>
#include <semaphore.h>
static pthread_barrier_t b; static void *f(void *x) { return (void *)(long)pthread_barrier_wait(&b); }
int main(void) {
pthread_t a; pthread_barrier_init(&b, 0, 2); pthread_create(&a, 0, f, 0); int r = pthread_barrier_wait(&b); void *q; pthread_join(a, &q); pg_out(r + (long)q); return 0;
}
