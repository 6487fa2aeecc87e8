/* Two threads add the input's numbers to one sum, under a mutex: one those at even places, one the others. */
#include <pthread.h>

long pg_in(long i);
long pg_in_len(void);
void pg_out(long v);

static pthread_mutex_t lock = PTHREAD_MUTEX_INITIALIZER;
static long sum;

static void add(long v) {
    pthread_mutex_lock(&lock);
    sum += v;
    pthread_mutex_unlock(&lock);
}

static void *worker(void *first) {
    for (long i = *(long *)first; i < pg_in_len(); i += 2)
        add(pg_in(i));
    return NULL;
}

int main(void) {
    pthread_t threads[2];
    long firsts[2];
    for (int t = 0; t < 2; t++) {
        firsts[t] = t;
        pthread_create(&threads[t], NULL, worker, &firsts[t]);
    }
    for (int t = 0; t < 2; t++)
        pthread_join(threads[t], NULL);
    pg_out(sum);
    return 0;
}
