/* A bounded buffer with two semaphores and a mutex: two producers, two consumers, and the sum of all that went
   through. */
#include "peregrine.h"
#include <pthread.h>
#include <semaphore.h>
#include <stdio.h>

#define PLACES 3

static int64_t buffer[PLACES];
static int first, last;
static sem_t empty, full;
static pthread_mutex_t lock = PTHREAD_MUTEX_INITIALIZER;

static void *producer(void *start) {
    for (int64_t i = (long)start; i < pg_in_len(); i += 2) {
        sem_wait(&empty);
        pthread_mutex_lock(&lock);
        buffer[last] = pg_in(i);
        last = (last + 1) % PLACES;
        pthread_mutex_unlock(&lock);
        sem_post(&full);
    }
    return NULL;
}

static void *consumer(void *count) {
    int64_t sum = 0;
    for (int64_t i = 0; i < (long)count; i++) {
        sem_wait(&full);
        pthread_mutex_lock(&lock);
        sum += buffer[first];
        first = (first + 1) % PLACES;
        pthread_mutex_unlock(&lock);
        sem_post(&empty);
    }
    return (void *)sum;
}

int main(void) {
    pthread_t producers[2], consumers[2];
    long half = (long)pg_in_len() / 2;
    sem_init(&empty, 0, PLACES);
    sem_init(&full, 0, 0);
    for (long i = 0; i < 2; i++) {
        pthread_create(&producers[i], NULL, producer, (void *)i);
        pthread_create(&consumers[i], NULL, consumer, (void *)(i ? half : (long)pg_in_len() - half));
    }
    int64_t sum = 0;
    for (int i = 0; i < 2; i++) {
        void *part;
        pthread_join(producers[i], NULL);
        pthread_join(consumers[i], &part);
        sum += (int64_t)part;
    }
    printf("%ld numbers, sum %ld\n", (long)pg_in_len(), (long)sum);
    return 0;
}
