/* A parallel quicksort whose schedules are used again: each thread sorts a half of the numbers in memory of its own, and
   main merges. So the places that the numbers decide are nobody else's, and what main does is as long as the input. */
#include "peregrine.h"
#include <pthread.h>

/* the numbers of one thread, and the bounds of the parts that it has still to sort */
struct half {
    int64_t count, numbers[512];
    int64_t firsts[512], lasts[512];
};

static struct half low, high;
static int64_t numbers[512];

/* Without a call of itself: a function that calls itself has no region. */
static void sort(struct half *of) {
    int64_t waiting = 1;
    of->firsts[0] = 0;
    of->lasts[0] = of->count;
    while (waiting > 0) {
        int64_t first = of->firsts[--waiting], last = of->lasts[waiting], place = first;
        if (last - first < 2)
            continue;
        int64_t middle = of->numbers[(first + last) / 2];
        of->numbers[(first + last) / 2] = of->numbers[last - 1];
        for (int64_t i = first; i < last - 1; i++)
            if (of->numbers[i] < middle) {
                int64_t n = of->numbers[i];
                of->numbers[i] = of->numbers[place];
                of->numbers[place++] = n;
            }
        of->numbers[last - 1] = of->numbers[place];
        of->numbers[place] = middle;
        of->firsts[waiting] = first;
        of->lasts[waiting++] = place;
        of->firsts[waiting] = place + 1;
        of->lasts[waiting++] = last;
    }
}

static void *sort_low(void *of) {
    sort(&low);
    return of;
}

static void *sort_high(void *of) {
    sort(&high);
    return of;
}

static void merge(void) {
    int64_t i = 0, j = 0;
    for (int64_t k = 0; k < pg_in_len(); k++)
        if (j == high.count || (i < low.count && low.numbers[i] <= high.numbers[j]))
            numbers[k] = low.numbers[i++];
        else
            numbers[k] = high.numbers[j++];
}

int main(void) {
    low.count = pg_in_len() / 2;
    high.count = pg_in_len() - low.count;
    for (int64_t i = 0; i < low.count; i++)
        low.numbers[i] = pg_in(i);
    for (int64_t i = 0; i < high.count; i++)
        high.numbers[i] = pg_in(low.count + i);
    pthread_t threads[2];
    pthread_create(&threads[0], NULL, sort_low, NULL);
    pthread_create(&threads[1], NULL, sort_high, NULL);
    pthread_join(threads[0], NULL);
    pthread_join(threads[1], NULL);
    merge();
    for (int64_t i = 0; i < pg_in_len(); i++)
        pg_out(numbers[i]);
    return 0;
}
