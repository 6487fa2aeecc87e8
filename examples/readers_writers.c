/* Readers and writers of one table under a lock of readers and writers: the writers put the input's numbers in, the
   readers see two equal copies each time. */
#include "peregrine.h"
#include <pthread.h>
#include <stdio.h>

#define READERS 2

static pthread_rwlock_t lock = PTHREAD_RWLOCK_INITIALIZER;
static int64_t sum, copy;

static void *writer(void *unused) {
    for (int64_t i = 0; i < pg_in_len(); i++) {
        pthread_rwlock_wrlock(&lock);
        sum += pg_in(i);
        copy = sum;
        pthread_rwlock_unlock(&lock);
    }
    return NULL;
}

static void *reader(void *unused) {
    long different = 0;
    for (int64_t i = 0; i < pg_in_len(); i++) {
        pthread_rwlock_rdlock(&lock);
        different += sum != copy;
        pthread_rwlock_unlock(&lock);
    }
    return (void *)different;
}

int main(void) {
    pthread_t write, read[READERS];
    pthread_create(&write, NULL, writer, NULL);
    for (int i = 0; i < READERS; i++)
        pthread_create(&read[i], NULL, reader, NULL);
    long different = 0;
    for (int i = 0; i < READERS; i++) {
        void *answer;
        pthread_join(read[i], &answer);
        different += (long)answer;
    }
    pthread_join(write, NULL);
    printf("sum %ld, copies that differed: %ld\n", (long)sum, different);
    return 0;
}
