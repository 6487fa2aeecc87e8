/* Merge sort: the left half of a long part is sorted by a thread of its own, short parts by insertion. */
#include "peregrine.h"
#include <pthread.h>
#include <stdio.h>
#include <string.h>

#define MOST 128
#define SHORT 4

struct part {
    int64_t *numbers;
    int count;
    long moves;
};

static int64_t numbers[MOST], spare[MOST];

static void insert_all(struct part *part) {
    for (int i = 1; i < part->count; i++) {
        int64_t n = part->numbers[i];
        int k = i;
        while (k > 0 && part->numbers[k - 1] > n) {
            part->numbers[k] = part->numbers[k - 1];
            part->moves++;
            k--;
        }
        part->numbers[k] = n;
    }
}

static void merge(struct part *part, int half) {
    int64_t *to = spare + (part->numbers - numbers);
    int left = 0, right = half;
    for (int i = 0; i < part->count; i++) {
        if (right == part->count || (left < half && part->numbers[left] <= part->numbers[right]))
            to[i] = part->numbers[left++];
        else
            to[i] = part->numbers[right++];
        part->moves++;
    }
    memcpy(part->numbers, to, part->count * sizeof *to);
}

static void *sort(void *argument) {
    struct part *part = argument;
    if (part->count <= SHORT) {
        insert_all(part);
        return NULL;
    }
    int half = part->count / 2;
    struct part left = {part->numbers, half, 0}, right = {part->numbers + half, part->count - half, 0};
    pthread_t thread;
    pthread_create(&thread, NULL, sort, &left);
    sort(&right);
    pthread_join(thread, NULL);
    part->moves = left.moves + right.moves;
    merge(part, half);
    return NULL;
}

int main(void) {
    struct part all = {numbers, 0, 0};
    while (all.count < pg_in_len() && all.count < MOST) {
        numbers[all.count] = pg_in(all.count);
        all.count++;
    }
    sort(&all);
    for (int i = 0; i < all.count; i++)
        printf("%ld ", (long)numbers[i]);
    printf("\n%ld moves\n", all.moves);
    return 0;
}
