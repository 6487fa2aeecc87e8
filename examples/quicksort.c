/* A parallel quicksort of the input's numbers: the two parts of a large list are sorted by a thread each. */
#include "peregrine.h"
#include <pthread.h>

struct part {
    int64_t first, last;
    int depth;
};

static int64_t numbers[512];

static void swap(int64_t i, int64_t j) {
    int64_t n = numbers[i];
    numbers[i] = numbers[j];
    numbers[j] = n;
}

/* numbers below the middle one before it, the others behind: gives its place */
static int64_t divide(int64_t first, int64_t last) {
    int64_t place = first;
    swap((first + last) / 2, last - 1);
    for (int64_t i = first; i < last - 1; i++)
        if (numbers[i] < numbers[last - 1])
            swap(i, place++);
    swap(place, last - 1);
    return place;
}

static void *sort(void *of) {
    struct part *p = of;
    if (p->last - p->first < 2)
        return NULL;
    int64_t place = divide(p->first, p->last);
    struct part low = {p->first, place, p->depth + 1}, high = {place + 1, p->last, p->depth + 1};
    if (p->depth < 2) {
        pthread_t thread;
        pthread_create(&thread, NULL, sort, &low);
        sort(&high);
        pthread_join(thread, NULL);
    } else {
        sort(&low);
        sort(&high);
    }
    return NULL;
}

int main(void) {
    for (int64_t i = 0; i < pg_in_len(); i++)
        numbers[i] = pg_in(i);
    struct part all = {0, pg_in_len(), 0};
    sort(&all);
    for (int64_t i = 0; i < pg_in_len(); i++)
        pg_out(numbers[i]);
    return 0;
}
