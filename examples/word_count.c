/* A count of words: a producer hands the bytes of a text over in pieces, a consumer counts its words, lines and bytes.
   The input's first number is how many bytes a piece has. */
#include "peregrine.h"
#include <pthread.h>
#include <stdbool.h>
#include <stdio.h>
#include <string.h>

static const char text[] = "it takes a program text\nand lines of numbers\nand the schedule that was tested\nruns again\n";

static char piece[16];
static size_t length;
static bool full, closed;
static pthread_mutex_t lock = PTHREAD_MUTEX_INITIALIZER;
static pthread_cond_t changed = PTHREAD_COND_INITIALIZER;

static void hand_over(const char *from, size_t n) {
    pthread_mutex_lock(&lock);
    while (full)
        pthread_cond_wait(&changed, &lock);
    memcpy(piece, from, n);
    length = n;
    full = n > 0;
    closed = n == 0;
    pthread_cond_broadcast(&changed);
    pthread_mutex_unlock(&lock);
}

static void *producer(void *unused) {
    size_t size = pg_in(0) > 0 && pg_in(0) <= 16 ? (size_t)pg_in(0) : 16, total = strlen(text);
    for (size_t at = 0; at < total; at += size)
        hand_over(text + at, total - at < size ? total - at : size);
    hand_over(text, 0);
    return NULL;
}

static size_t take(char *to) {
    pthread_mutex_lock(&lock);
    while (!full && !closed)
        pthread_cond_wait(&changed, &lock);
    size_t n = full ? length : 0;
    memcpy(to, piece, n);
    full = false;
    pthread_cond_broadcast(&changed);
    pthread_mutex_unlock(&lock);
    return n;
}

int main(void) {
    pthread_t thread;
    char bytes[16];
    int words = 0, lines = 0, total = 0;
    bool within = false;
    pthread_create(&thread, NULL, producer, NULL);
    for (size_t n; (n = take(bytes)) > 0; total += (int)n)
        for (size_t i = 0; i < n; i++) {
            bool blank = bytes[i] == ' ' || bytes[i] == '\n';
            words += !blank && !within;
            within = !blank;
            lines += bytes[i] == '\n';
        }
    pthread_join(thread, NULL);
    printf("%d %d %d\n", lines, words, total);
    return 0;
}
