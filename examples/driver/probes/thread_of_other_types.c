#include "peregrine.h"
#include <pthread.h>
static void work(int *of) { *of = 3; }
int main(void) {
    pthread_t thread;
    int n;
    pthread_create(&thread, NULL, (void *(*)(void *))work, &n); // refused here
    pthread_join(thread, NULL);
    pg_out(n);
    return 0;
}
