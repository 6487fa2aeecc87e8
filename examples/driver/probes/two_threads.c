#include "peregrine.h"
#include <pthread.h>
#include <semaphore.h>
static void *f(void *x) { return (void *)((long)x * 2); }
int main(void) {
pthread_t a, b; pthread_create(&a, 0, f, (void *)3); pthread_create(&b, 0, f, (void *)4); void *x, *y; pthread_join(a, &x); pthread_join(b, &y); pg_out((long)x + (long)y); return 0;
}
