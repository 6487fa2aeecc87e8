/* The same as extremes.c, with schedules that are used again: a variable of its own for each thread's results, stored
   once at the end, and places by an index in place of a pointer that moves. */
#include "peregrine.h"
#include <pthread.h>

struct result {
    int64_t least, greatest, has_seven;
};

static int64_t numbers[512];
static struct result low, high;

static void look(struct result *result, int64_t first, int64_t last) {
    int64_t least = INT64_MAX, greatest = INT64_MIN, has_seven = 0;
    for (int64_t i = first; i < last; i++) {
        if (numbers[i] < least)
            least = numbers[i];
        if (numbers[i] > greatest)
            greatest = numbers[i];
        if (numbers[i] == 7)
            has_seven = 1;
    }
    result->least = least;
    result->greatest = greatest;
    result->has_seven = has_seven;
}

static void *look_low(void *of) {
    look(&low, 0, pg_in_len() / 2);
    return of;
}

static void *look_high(void *of) {
    look(&high, pg_in_len() / 2, pg_in_len());
    return of;
}

int main(void) {
    pthread_t threads[2];
    for (int64_t i = 0; i < pg_in_len(); i++)
        numbers[i] = pg_in(i);
    pthread_create(&threads[0], NULL, look_low, NULL);
    pthread_create(&threads[1], NULL, look_high, NULL);
    pthread_join(threads[0], NULL);
    pthread_join(threads[1], NULL);
    pg_out(low.least < high.least ? low.least : high.least);
    pg_out(low.greatest > high.greatest ? low.greatest : high.greatest);
    pg_out(low.has_seven | high.has_seven);
    return 0;
}
