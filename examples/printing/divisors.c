/* Two threads count the divisors of the numbers, and main prints them in order. */
#include "peregrine.h"
#include <pthread.h>
#include <stdio.h>

static int even_places[256], odd_places[256];

static int divisors(int64_t n) {
    int count = 0;
    for (int64_t d = 1; d <= 24; d++)
        if (n % d == 0)
            count++;
    return count;
}

static void *count_even(void *of) {
    for (int64_t i = 0; i < pg_in_len(); i += 2)
        even_places[i / 2] = divisors(pg_in(i));
    return of;
}

static void *count_odd(void *of) {
    for (int64_t i = 1; i < pg_in_len(); i += 2)
        odd_places[i / 2] = divisors(pg_in(i));
    return of;
}

int main(void) {
    pthread_t one, other;
    pthread_create(&one, NULL, count_even, NULL);
    pthread_create(&other, NULL, count_odd, NULL);
    pthread_join(one, NULL);
    pthread_join(other, NULL);
    for (int64_t i = 0; i < pg_in_len(); i++)
        printf("%d has %d up to 24\n", (int)pg_in(i), i % 2 ? odd_places[i / 2] : even_places[i / 2]);
    return 0;
}
