/* A cache of the values that were used last, under one lock: chains by the key's remainder, and a list in the order of use,
   of which the end goes. Two threads ask for the numbers' squares. */
#include "peregrine.h"
#include <pthread.h>
#include <stdio.h>
#include <stdlib.h>

#define THREADS 2
#define CHAINS 8
#define MOST 6

struct node {
    int64_t key, value;
    struct node *in_chain;
    struct node *newer, *older;
};

static struct {
    pthread_mutex_t lock;
    struct node *chains[CHAINS];
    struct node *newest, *oldest;
    int count, hits, misses;
} cache = {.lock = PTHREAD_MUTEX_INITIALIZER};

static struct node **chain_of(int64_t key) {
    return &cache.chains[(uint64_t)key % CHAINS];
}

static void take_out(struct node *node) {
    if (node->newer)
        node->newer->older = node->older;
    else
        cache.newest = node->older;
    if (node->older)
        node->older->newer = node->newer;
    else
        cache.oldest = node->newer;
}

static void put_in_front(struct node *node) {
    node->newer = NULL;
    node->older = cache.newest;
    if (cache.newest)
        cache.newest->newer = node;
    else
        cache.oldest = node;
    cache.newest = node;
}

static void forget_oldest(void) {
    struct node *old = cache.oldest;
    struct node **at = chain_of(old->key);
    while (*at != old)
        at = &(*at)->in_chain;
    *at = old->in_chain;
    take_out(old);
    free(old);
    cache.count--;
}

static int64_t square(int64_t key) {
    pthread_mutex_lock(&cache.lock);
    struct node *node = *chain_of(key);
    while (node && node->key != key)
        node = node->in_chain;
    if (node) {
        cache.hits++;
        take_out(node);
    } else {
        cache.misses++;
        if (cache.count == MOST)
            forget_oldest();
        node = malloc(sizeof *node);
        node->key = key;
        node->value = key * key;
        node->in_chain = *chain_of(key);
        *chain_of(key) = node;
        cache.count++;
    }
    put_in_front(node);
    int64_t value = node->value;
    pthread_mutex_unlock(&cache.lock);
    return value;
}

static void *ask(void *argument) {
    int64_t sum = 0;
    for (int64_t i = (long)argument; i < pg_in_len(); i += THREADS)
        sum += square(pg_in(i));
    return (void *)sum;
}

int main(void) {
    pthread_t threads[THREADS];
    int64_t sum = 0;
    for (long i = 0; i < THREADS; i++)
        pthread_create(&threads[i], NULL, ask, (void *)i);
    for (int i = 0; i < THREADS; i++) {
        void *part;
        pthread_join(threads[i], &part);
        sum += (int64_t)part;
    }
    printf("sum of squares %ld, %d hits of %d\n", (long)sum, cache.hits, cache.hits + cache.misses);
    return 0;
}
