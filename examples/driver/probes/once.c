#include "peregrine.h"
#include <pthread.h>
#include <semaphore.h>
static pthread_once_t o = PTHREAD_ONCE_INIT; static long n; static void f(void) { n++; }
int main(void) {
pthread_once(&o, f); pthread_once(&o, f); pg_out(n); return 0;
}
