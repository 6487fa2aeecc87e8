#include "peregrine.h"
#include <pthread.h>
#include <semaphore.h>
static pthread_rwlock_t l = PTHREAD_RWLOCK_INITIALIZER; static long n; static void *f(void *x) { pthread_rwlock_wrlock(&l); n = 1; pthread_rwlock_unlock(&l); return 0; }
int main(void) {
pthread_t a; pthread_create(&a, 0, f, 0); pthread_rwlock_rdlock(&l); pg_out(n == 0 || n == 1); pthread_rwlock_unlock(&l); pthread_join(a, 0); return 0;
}
