/* A producer and a consumer with one place between them: the producer hands over the input's numbers, the
   consumer prints the square of each, and exits with how many there were. */
#include <pthread.h>
#include <stdlib.h>

long pg_in(long i);
long pg_in_len(void);
void pg_out(long v);

struct slot {
    pthread_mutex_t lock;
    pthread_cond_t changed;
    long item;
    short is_full;
    short is_done;
};

static void hand_over(struct slot *s, long v, short is_done) {
    pthread_mutex_lock(&s->lock);
    while (s->is_full)
        pthread_cond_wait(&s->changed, &s->lock);
    s->item = v;
    s->is_full = 1;
    s->is_done = is_done;
    pthread_cond_broadcast(&s->changed);
    pthread_mutex_unlock(&s->lock);
}

static void *producer(void *slot) {
    for (long i = 0; i < pg_in_len(); i++)
        hand_over(slot, pg_in(i), 0);
    hand_over(slot, 0, 1);
    return NULL;
}

static void *consumer(void *slot) {
    struct slot *s = slot;
    long count = 0;
    for (;;) {
        pthread_mutex_lock(&s->lock);
        while (!s->is_full)
            pthread_cond_wait(&s->changed, &s->lock);
        long v = s->item;
        int is_done = s->is_done;
        s->is_full = 0;
        pthread_cond_broadcast(&s->changed);
        pthread_mutex_unlock(&s->lock);
        if (is_done)
            break;
        pg_out(v * v);
        count++;
    }
    pthread_exit((void *)count);
}

int main(void) {
    struct slot *s = malloc(sizeof(struct slot));
    pthread_t threads[2];
    void *count = NULL;
    if (s == NULL)
        return 1;
    s->is_full = 0;
    s->is_done = 0;
    pthread_mutex_init(&s->lock, NULL);
    pthread_cond_init(&s->changed, NULL);
    pthread_create(&threads[0], NULL, producer, s);
    pthread_create(&threads[1], NULL, consumer, s);
    pthread_join(threads[0], NULL);
    pthread_join(threads[1], &count);
    pg_out((long)count);
    free(s);
    return 0;
}
