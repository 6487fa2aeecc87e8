/* A histogram: each thread counts its share of the numbers in a part of its own, with the least and the greatest, and main
   adds the parts up. */
#include "peregrine.h"
#include <pthread.h>
#include <stdio.h>

#define THREADS 3
#define BUCKETS 6
#define WIDTH 25

struct part {
    int counts[BUCKETS];
    int64_t least, greatest;
    int numbers;
};

static struct part parts[THREADS];

static int bucket_of(int64_t n) {
    if (n < 0)
        return 0;
    if (n >= BUCKETS * WIDTH)
        return BUCKETS - 1;
    return (int)(n / WIDTH);
}

static void *count(void *argument) {
    long me = (long)argument;
    struct part *part = &parts[me];
    for (int64_t i = me; i < pg_in_len(); i += THREADS) {
        int64_t n = pg_in(i);
        part->counts[bucket_of(n)]++;
        if (part->numbers == 0 || n < part->least)
            part->least = n;
        if (part->numbers == 0 || n > part->greatest)
            part->greatest = n;
        part->numbers++;
    }
    return NULL;
}

int main(void) {
    pthread_t threads[THREADS];
    struct part all = {{0}, 0, 0, 0};
    for (long i = 0; i < THREADS; i++)
        pthread_create(&threads[i], NULL, count, (void *)i);
    for (int i = 0; i < THREADS; i++) {
        pthread_join(threads[i], NULL);
        if (parts[i].numbers == 0)
            continue;
        if (all.numbers == 0 || parts[i].least < all.least)
            all.least = parts[i].least;
        if (all.numbers == 0 || parts[i].greatest > all.greatest)
            all.greatest = parts[i].greatest;
        all.numbers += parts[i].numbers;
        for (int k = 0; k < BUCKETS; k++)
            all.counts[k] += parts[i].counts[k];
    }
    for (int k = 0; k < BUCKETS; k++)
        printf("from %d on: %d\n", k * WIDTH, all.counts[k]);
    printf("%d numbers from %ld to %ld\n", all.numbers, (long)all.least, (long)all.greatest);
    return 0;
}
