#include "peregrine.h"
#include <pthread.h>
#include <semaphore.h>
static pthread_mutex_t m = PTHREAD_MUTEX_INITIALIZER; static long n; static void *f(void *x) { for (int i = 0; i < 3; i++) { pthread_mutex_lock(&m); n++; pthread_mutex_unlock(&m); } return 0; }
int main(void) {
pthread_t a; pthread_create(&a, 0, f, 0); f(0); pthread_join(a, 0); pg_out(n); return 0;
}
