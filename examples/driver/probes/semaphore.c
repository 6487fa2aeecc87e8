#include "peregrine.h"
#include <pthread.h>
#include <semaphore.h>
static sem_t s; static long n; static void *f(void *x) { n = 5; sem_post(&s); return 0; }
int main(void) {
pthread_t a; sem_init(&s, 0, 0); pthread_create(&a, 0, f, 0); sem_wait(&s); pg_out(n); pthread_join(a, 0); return 0;
}
