#include "peregrine.h"
#include <pthread.h>
#include <semaphore.h>
static void *f(void *x) { return 0; }
int main(void) {
pthread_t a;
pthread_create(&a, 0, f, 0);
pthread_detach(a); // refused here
return 0;
}
