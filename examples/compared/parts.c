/* Each thread fills a part of a list, but for one place that both take: the bounds of the parts are one too wide. */
#include "peregrine.h"
#include <pthread.h>

static int64_t list[64]; // raced
static int64_t bounds[3];

static void *fill_low(void *of) {
    for (int64_t i = bounds[0]; i <= bounds[1]; i++)
        list[i] = pg_in(i);
    return of;
}

static void *fill_high(void *of) {
    for (int64_t i = bounds[1]; i < bounds[2]; i++)
        list[i] = pg_in(i);
    return of;
}

int main(void) {
    bounds[1] = pg_in_len() / 2;
    bounds[2] = pg_in_len();
    pthread_t low, high;
    pthread_create(&low, NULL, fill_low, NULL);
    pthread_create(&high, NULL, fill_high, NULL);
    pthread_join(low, NULL);
    pthread_join(high, NULL);
    for (int64_t i = 0; i < pg_in_len(); i++)
        pg_out(list[i]);
    return 0;
}
