/* A notice board: many may read it at once, and a writer waits until nobody reads, by one mutex and one condition variable.
   Two writers put up the numbers, and two readers look that a notice is whole. */
#include "peregrine.h"
#include <pthread.h>
#include <stdio.h>

#define READERS 2
#define WRITERS 2

struct board {
    pthread_mutex_t lock;
    pthread_cond_t change;
    int readers;
    int is_written;
    int64_t notice, copy;
    int64_t sum;
    int count;
};

static struct board board = {.lock = PTHREAD_MUTEX_INITIALIZER, .change = PTHREAD_COND_INITIALIZER};
static int torn[READERS];

static void begin_reading(void) {
    pthread_mutex_lock(&board.lock);
    while (board.is_written)
        pthread_cond_wait(&board.change, &board.lock);
    board.readers++;
    pthread_mutex_unlock(&board.lock);
}

static void end_reading(void) {
    pthread_mutex_lock(&board.lock);
    if (--board.readers == 0)
        pthread_cond_broadcast(&board.change);
    pthread_mutex_unlock(&board.lock);
}

static void begin_writing(void) {
    pthread_mutex_lock(&board.lock);
    while (board.is_written || board.readers > 0)
        pthread_cond_wait(&board.change, &board.lock);
    board.is_written = 1;
    pthread_mutex_unlock(&board.lock);
}

static void end_writing(void) {
    pthread_mutex_lock(&board.lock);
    board.is_written = 0;
    pthread_cond_broadcast(&board.change);
    pthread_mutex_unlock(&board.lock);
}

static void *write_all(void *first) {
    for (int64_t i = (long)first; i < pg_in_len(); i += WRITERS) {
        begin_writing();
        board.notice = pg_in(i);
        board.sum += board.notice;
        board.count++;
        board.copy = board.notice;
        end_writing();
    }
    return NULL;
}

static void *read_all(void *argument) {
    int me = (int)(long)argument;
    for (int64_t i = 0; i < pg_in_len(); i++) {
        begin_reading();
        if (board.notice != board.copy)
            torn[me]++;
        end_reading();
    }
    return NULL;
}

int main(void) {
    pthread_t readers[READERS], writers[WRITERS];
    for (long i = 0; i < WRITERS; i++)
        pthread_create(&writers[i], NULL, write_all, (void *)i);
    for (long i = 0; i < READERS; i++)
        pthread_create(&readers[i], NULL, read_all, (void *)i);
    for (int i = 0; i < WRITERS; i++)
        pthread_join(writers[i], NULL);
    for (int i = 0; i < READERS; i++)
        pthread_join(readers[i], NULL);
    printf("%d notices, sum %ld, mean %ld\n", board.count, (long)board.sum, board.count ? (long)(board.sum / board.count) : 0);
    if (torn[0] + torn[1] > 0)
        printf("%d torn notices\n", torn[0] + torn[1]);
    return 0;
}
