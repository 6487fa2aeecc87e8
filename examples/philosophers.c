/* Dining philosophers: each takes the fork of the lower number first, so nobody waits forever. The input's first
   number is how often each eats. */
#include "peregrine.h"
#include <pthread.h>
#include <stdio.h>

#define SEATS 5

static pthread_mutex_t forks[SEATS];
static int meals[SEATS];

static void *philosopher(void *seat) {
    int left = (int)(long)seat, right = (left + 1) % SEATS;
    int low = left < right ? left : right, high = left < right ? right : left;
    for (int64_t i = 0; i < pg_in(0); i++) {
        pthread_mutex_lock(&forks[low]);
        pthread_mutex_lock(&forks[high]);
        meals[left]++;
        pthread_mutex_unlock(&forks[high]);
        pthread_mutex_unlock(&forks[low]);
    }
    return NULL;
}

int main(void) {
    pthread_t threads[SEATS];
    for (int i = 0; i < SEATS; i++)
        pthread_mutex_init(&forks[i], NULL);
    for (long i = 0; i < SEATS; i++)
        pthread_create(&threads[i], NULL, philosopher, (void *)i);
    int total = 0;
    for (int i = 0; i < SEATS; i++) {
        pthread_join(threads[i], NULL);
        total += meals[i];
    }
    printf("%d philosophers ate %d times\n", SEATS, total);
    return 0;
}
