/* A pool of threads that take work from one queue: each piece of work is to count the steps that a number of the
   input takes to 1, halved where it is even, else three times it and one more. */
#include "peregrine.h"
#include <pthread.h>
#include <stdbool.h>

#define THREADS 3
#define WAITING 4

struct work {
    int64_t number;
    int64_t *answer;
};

static struct {
    struct work items[WAITING];
    int first, count;
    bool closed;
    pthread_mutex_t lock;
    pthread_cond_t filled, emptied;
} queue = {.lock = PTHREAD_MUTEX_INITIALIZER, .filled = PTHREAD_COND_INITIALIZER, .emptied = PTHREAD_COND_INITIALIZER};

static void put(struct work w) {
    pthread_mutex_lock(&queue.lock);
    while (queue.count == WAITING)
        pthread_cond_wait(&queue.emptied, &queue.lock);
    queue.items[(queue.first + queue.count++) % WAITING] = w;
    pthread_cond_signal(&queue.filled);
    pthread_mutex_unlock(&queue.lock);
}

static void close_queue(void) {
    pthread_mutex_lock(&queue.lock);
    queue.closed = true;
    pthread_cond_broadcast(&queue.filled);
    pthread_mutex_unlock(&queue.lock);
}

static bool take(struct work *w) {
    pthread_mutex_lock(&queue.lock);
    while (queue.count == 0 && !queue.closed)
        pthread_cond_wait(&queue.filled, &queue.lock);
    bool has = queue.count > 0;
    if (has) {
        *w = queue.items[queue.first];
        queue.first = (queue.first + 1) % WAITING;
        queue.count--;
        pthread_cond_signal(&queue.emptied);
    }
    pthread_mutex_unlock(&queue.lock);
    return has;
}

static int64_t steps(int64_t n) {
    int64_t count = 0;
    for (; n > 1 && count < 200; count++)
        n = n % 2 == 0 ? n / 2 : 3 * n + 1;
    return count;
}

static void *worker(void *unused) {
    struct work w;
    while (take(&w))
        *w.answer = steps(w.number);
    return NULL;
}

int main(void) {
    static int64_t answers[512];
    pthread_t threads[THREADS];
    for (int t = 0; t < THREADS; t++)
        pthread_create(&threads[t], NULL, worker, NULL);
    for (int64_t i = 0; i < pg_in_len(); i++)
        put((struct work){pg_in(i), &answers[i]});
    close_queue();
    for (int t = 0; t < THREADS; t++)
        pthread_join(threads[t], NULL);
    for (int64_t i = 0; i < pg_in_len(); i++)
        pg_out(answers[i]);
    return 0;
}
