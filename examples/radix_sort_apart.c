/* A parallel radix sort whose schedules are used again. A thread takes the numbers whose digit lies in its share to a
   block of its own, from the blocks of all threads, which nobody writes in that round. So the places that the numbers
   decide are nobody else's, and what main does is as long as the input. */
#include "peregrine.h"
#include <pthread.h>
#include <stdint.h>

#define THREADS 3
#define DIGITS 16
#define ROUNDS 4

struct block {
    int64_t count;
    uint64_t numbers[512];
};

/* one for each thread, by turns; each is a variable of its own, since bounds are those of a whole variable */
static struct block first_even, second_even, third_even, first_odd, second_odd, third_odd;
static pthread_barrier_t barrier;

/* a macro: a call in a loop holds the loop to its way, where the function has local variables */
#define DIGIT(n, round) ((n) >> (4 * (round)) & (DIGITS - 1))

/* appends the numbers of a block with this digit to another */
static void take(struct block *to, const struct block *from, int round, uint64_t digit) {
    int64_t count = to->count;
    for (int64_t i = 0; i < from->count; i++)
        if (DIGIT(from->numbers[i], round) == digit)
            to->numbers[count++] = from->numbers[i];
    to->count = count;
}

static void take_share(struct block *to, const struct block *first, const struct block *second, const struct block *third, int t, int round) {
    to->count = 0;
    for (int digit = DIGITS * t / THREADS; digit < DIGITS * (t + 1) / THREADS; digit++) {
        take(to, first, round, (uint64_t)digit);
        take(to, second, round, (uint64_t)digit);
        take(to, third, round, (uint64_t)digit);
    }
}

static void sort(struct block *even, struct block *odd, int t) {
    for (int round = 0; round < ROUNDS; round += 2) {
        take_share(odd, &first_even, &second_even, &third_even, t, round);
        pthread_barrier_wait(&barrier);
        take_share(even, &first_odd, &second_odd, &third_odd, t, round + 1);
        pthread_barrier_wait(&barrier);
    }
}

static void *sort_first(void *of) {
    sort(&first_even, &first_odd, 0);
    return of;
}

static void *sort_second(void *of) {
    sort(&second_even, &second_odd, 1);
    return of;
}

static void *sort_third(void *of) {
    sort(&third_even, &third_odd, 2);
    return of;
}

/* appends all numbers of a block to another */
static void append(struct block *to, const struct block *from) {
    int64_t count = to->count;
    for (int64_t i = 0; i < from->count; i++)
        to->numbers[count++] = from->numbers[i];
    to->count = count;
}

int main(void) {
    for (int64_t i = 0; i < pg_in_len(); i++)
        first_even.numbers[i] = (uint64_t)pg_in(i) & 0xffff;
    first_even.count = pg_in_len();
    pthread_barrier_init(&barrier, NULL, THREADS);
    pthread_t threads[THREADS];
    pthread_create(&threads[0], NULL, sort_first, NULL);
    pthread_create(&threads[1], NULL, sort_second, NULL);
    pthread_create(&threads[2], NULL, sort_third, NULL);
    for (int t = 0; t < THREADS; t++)
        pthread_join(threads[t], NULL);
    append(&first_even, &second_even);
    append(&first_even, &third_even);
    /* one loop, as long as the input: how many numbers each block has is then free */
    for (int64_t i = 0; i < pg_in_len(); i++)
        pg_out((int64_t)first_even.numbers[i]);
    return 0;
}
