/* Each number goes through two stages, over places that a lock and conditions guard, and is printed with its square. */
#include "peregrine.h"
#include <pthread.h>
#include <stdio.h>

struct place {
    pthread_mutex_t lock;
    pthread_cond_t change;
    long number;
    int is_full;
};

static struct place first, second;

static void put(struct place *place, long number) {
    pthread_mutex_lock(&place->lock);
    while (place->is_full)
        pthread_cond_wait(&place->change, &place->lock);
    place->number = number;
    place->is_full = 1;
    pthread_cond_signal(&place->change);
    pthread_mutex_unlock(&place->lock);
}

static long take(struct place *place) {
    pthread_mutex_lock(&place->lock);
    while (!place->is_full)
        pthread_cond_wait(&place->change, &place->lock);
    long number = place->number;
    place->is_full = 0;
    pthread_cond_signal(&place->change);
    pthread_mutex_unlock(&place->lock);
    return number;
}

static void *double_all(void *of) {
    for (int64_t i = 0; i < pg_in_len(); i++)
        put(&second, 2 * take(&first));
    return of;
}

static void *print_all(void *of) {
    for (int64_t i = 0; i < pg_in_len(); i++) {
        long n = take(&second);
        printf("%ld, squared %ld\n", n, n * n);
    }
    return of;
}

int main(void) {
    pthread_t doubler, printer;
    pthread_create(&doubler, NULL, double_all, NULL);
    pthread_create(&printer, NULL, print_all, NULL);
    for (int64_t i = 0; i < pg_in_len(); i++)
        put(&first, pg_in(i));
    pthread_join(doubler, NULL);
    pthread_join(printer, NULL);
    return 0;
}
