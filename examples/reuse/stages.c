/* A pipeline of four stages with a queue between two: read the numbers, scale them, clip them, and print them with their
   sum. The last item says that none comes any more. */
#include "peregrine.h"
#include <pthread.h>
#include <stdio.h>

#define PLACES 3
#define GREATEST 150

struct item {
    long value;
    int is_last;
};

struct queue {
    pthread_mutex_t lock;
    pthread_cond_t filled, emptied;
    struct item items[PLACES];
    int first, count;
};

static struct queue read_ones, scaled_ones, clipped_ones;

static void open_queue(struct queue *queue) {
    pthread_mutex_init(&queue->lock, NULL);
    pthread_cond_init(&queue->filled, NULL);
    pthread_cond_init(&queue->emptied, NULL);
    queue->first = queue->count = 0;
}

static void put(struct queue *queue, const struct item *item) {
    pthread_mutex_lock(&queue->lock);
    while (queue->count == PLACES)
        pthread_cond_wait(&queue->emptied, &queue->lock);
    queue->items[(queue->first + queue->count) % PLACES] = *item;
    queue->count++;
    pthread_cond_signal(&queue->filled);
    pthread_mutex_unlock(&queue->lock);
}

static void take(struct queue *queue, struct item *item) {
    pthread_mutex_lock(&queue->lock);
    while (queue->count == 0)
        pthread_cond_wait(&queue->filled, &queue->lock);
    *item = queue->items[queue->first];
    queue->first = (queue->first + 1) % PLACES;
    queue->count--;
    pthread_cond_signal(&queue->emptied);
    pthread_mutex_unlock(&queue->lock);
}

static void *read_stage(void *unused) {
    struct item item = {0, 0};
    for (int64_t i = 0; i < pg_in_len(); i++) {
        item.value = pg_in(i);
        put(&read_ones, &item);
    }
    item.is_last = 1;
    put(&read_ones, &item);
    return unused;
}

static void *scale_stage(void *unused) {
    struct item item;
    do {
        take(&read_ones, &item);
        item.value = 3 * item.value + 1;
        put(&scaled_ones, &item);
    } while (!item.is_last);
    return unused;
}

static void *clip_stage(void *unused) {
    struct item item;
    do {
        take(&scaled_ones, &item);
        if (item.value > GREATEST)
            item.value = GREATEST;
        else if (item.value < 0)
            item.value = 0;
        put(&clipped_ones, &item);
    } while (!item.is_last);
    return unused;
}

static void *print_stage(void *unused) {
    struct item item;
    long sum = 0;
    for (take(&clipped_ones, &item); !item.is_last; take(&clipped_ones, &item)) {
        sum += item.value;
        printf("%ld\n", item.value);
    }
    printf("sum %ld\n", sum);
    return unused;
}

int main(void) {
    pthread_t threads[4];
    open_queue(&read_ones);
    open_queue(&scaled_ones);
    open_queue(&clipped_ones);
    pthread_create(&threads[0], NULL, read_stage, NULL);
    pthread_create(&threads[1], NULL, scale_stage, NULL);
    pthread_create(&threads[2], NULL, clip_stage, NULL);
    pthread_create(&threads[3], NULL, print_stage, NULL);
    for (int i = 0; i < 4; i++)
        pthread_join(threads[i], NULL);
    return 0;
}
