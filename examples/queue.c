/* A queue of four places with two condition variables: main puts the input's numbers in, and two threads
   take them out and add them up. */
#include <pthread.h>

#define PLACES 4

long pg_in(long i);
long pg_in_len(void);
void pg_out(long v);

struct queue {
    pthread_mutex_t lock;
    pthread_cond_t not_empty, not_full;
    long items[PLACES];
    int first, count;
    char closed;
};

static struct queue queue;
static long sums[2];

static void put(struct queue *q, long v) {
    pthread_mutex_lock(&q->lock);
    while (q->count == PLACES)
        pthread_cond_wait(&q->not_full, &q->lock);
    q->items[(q->first + q->count) % PLACES] = v;
    q->count++;
    pthread_cond_signal(&q->not_empty);
    pthread_mutex_unlock(&q->lock);
}

static void close_queue(struct queue *q) {
    pthread_mutex_lock(&q->lock);
    q->closed = 1;
    pthread_cond_broadcast(&q->not_empty);
    pthread_mutex_unlock(&q->lock);
}

/* whether there was an item, which is then at v */
static int take(struct queue *q, long *v) {
    int found = 0;
    pthread_mutex_lock(&q->lock);
    while (q->count == 0 && !q->closed)
        pthread_cond_wait(&q->not_empty, &q->lock);
    if (q->count > 0) {
        *v = q->items[q->first];
        q->first = (q->first + 1) % PLACES;
        q->count--;
        found = 1;
        pthread_cond_signal(&q->not_full);
    }
    pthread_mutex_unlock(&q->lock);
    return found;
}

static void *worker(void *sum) {
    long v;
    while (take(&queue, &v))
        *(long *)sum += v;
    return NULL;
}

int main(void) {
    pthread_t threads[2];
    pthread_mutex_init(&queue.lock, NULL);
    pthread_cond_init(&queue.not_empty, NULL);
    pthread_cond_init(&queue.not_full, NULL);
    for (int t = 0; t < 2; t++)
        pthread_create(&threads[t], NULL, worker, &sums[t]);
    for (long i = 0; i < pg_in_len(); i++)
        put(&queue, pg_in(i));
    close_queue(&queue);
    for (int t = 0; t < 2; t++)
        pthread_join(threads[t], NULL);
    pg_out(sums[0] + sums[1]);
    pthread_cond_destroy(&queue.not_full);
    pthread_cond_destroy(&queue.not_empty);
    pthread_mutex_destroy(&queue.lock);
    return 0;
}
