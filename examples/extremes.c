/* Two threads look through a half of the numbers each, for the least, the greatest, and the number 7. */
#include "peregrine.h"
#include <pthread.h>

#define THREADS 2

struct part {
    const int64_t *first, *last;
    int64_t least, greatest, has_seven;
};

static int64_t numbers[512];
static struct part parts[THREADS];

static void *look(void *of) {
    struct part *part = of;
    for (const int64_t *p = part->first; p < part->last; p++) {
        if (*p < part->least)
            part->least = *p;
        if (*p > part->greatest)
            part->greatest = *p;
    }
    for (const int64_t *p = part->first; p < part->last; p++)
        if (*p == 7) {
            part->has_seven = 1;
            return NULL;
        }
    return NULL;
}

int main(void) {
    pthread_t threads[THREADS];
    for (int64_t i = 0; i < pg_in_len(); i++)
        numbers[i] = pg_in(i);
    for (int64_t t = 0; t < THREADS; t++) {
        parts[t].first = numbers + pg_in_len() * t / THREADS;
        parts[t].last = numbers + pg_in_len() * (t + 1) / THREADS;
        parts[t].least = INT64_MAX;
        parts[t].greatest = INT64_MIN;
        pthread_create(&threads[t], NULL, look, &parts[t]);
    }
    int64_t least = INT64_MAX, greatest = INT64_MIN, has_seven = 0;
    for (int t = 0; t < THREADS; t++) {
        pthread_join(threads[t], NULL);
        least = parts[t].least < least ? parts[t].least : least;
        greatest = parts[t].greatest > greatest ? parts[t].greatest : greatest;
        has_seven |= parts[t].has_seven;
    }
    pg_out(least);
    pg_out(greatest);
    pg_out(has_seven);
    return 0;
}
