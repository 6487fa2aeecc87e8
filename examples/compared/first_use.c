/* A table is made at its first use; whether it is there is asked without the lock. */
#include "peregrine.h"
#include <pthread.h>

static pthread_mutex_t lock = PTHREAD_MUTEX_INITIALIZER;
static volatile int64_t is_made;  // raced
static volatile int64_t table[8]; // raced

static int64_t square(int64_t n) {
    if (!is_made) {
        pthread_mutex_lock(&lock);
        if (!is_made) {
            for (int64_t i = 0; i < 8; i++)
                table[i] = i * i;
            is_made = 1;
        }
        pthread_mutex_unlock(&lock);
    }
    return table[n & 7];
}

static void *use(void *of) {
    int64_t *sum = of;
    for (int64_t i = 0; i < pg_in_len(); i++)
        *sum += square(pg_in(i));
    return of;
}

int main(void) {
    pthread_t one, other;
    int64_t sums[2] = {0, 0};
    pthread_create(&one, NULL, use, &sums[0]);
    pthread_create(&other, NULL, use, &sums[1]);
    pthread_join(one, NULL);
    pthread_join(other, NULL);
    pg_out(sums[0]);
    pg_out(sums[1]);
    return 0;
}
