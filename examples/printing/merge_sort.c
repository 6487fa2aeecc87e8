/* Two threads sort a half of the numbers each, in memory of their own, and main merges. */
#include "peregrine.h"
#include <pthread.h>
#include <stdio.h>

static long low_half[256], high_half[256];

static void sort(long *list, int64_t count) {
    for (int64_t i = 1; i < count; i++)
        for (int64_t k = i; k > 0; k--)
            if (list[k - 1] > list[k]) {
                long moved = list[k];
                list[k] = list[k - 1];
                list[k - 1] = moved;
            }
}

static void *sort_low(void *of) {
    int64_t count = pg_in_len() / 2;
    for (int64_t i = 0; i < count; i++)
        low_half[i] = pg_in(i);
    sort(low_half, count);
    return of;
}

static void *sort_high(void *of) {
    int64_t first = pg_in_len() / 2, count = pg_in_len() - first;
    for (int64_t i = 0; i < count; i++)
        high_half[i] = pg_in(first + i);
    sort(high_half, count);
    return of;
}

int main(void) {
    pthread_t one, other;
    pthread_create(&one, NULL, sort_low, NULL);
    pthread_create(&other, NULL, sort_high, NULL);
    pthread_join(one, NULL);
    pthread_join(other, NULL);
    int64_t low = 0, high = 0, lows = pg_in_len() / 2, highs = pg_in_len() - lows;
    for (int64_t i = 0; i < lows + highs; i++) {
        long next;
        if (high == highs || (low < lows && low_half[low] <= high_half[high]))
            next = low_half[low++];
        else
            next = high_half[high++];
        printf("%ld ", next);
    }
    printf("\n");
    return 0;
}
