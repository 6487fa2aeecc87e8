#include "peregrine.h"
#include <pthread.h>
#include <semaphore.h>

int main(void) {
pthread_mutexattr_t a;
pthread_mutexattr_init(&a); // refused here
pthread_mutexattr_settype(&a, PTHREAD_MUTEX_RECURSIVE);
pthread_mutex_t m;
pthread_mutex_init(&m, &a);
return 0;
}
