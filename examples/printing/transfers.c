/* Two threads move the numbers between three accounts, each of which has a lock of its own. */
#include "peregrine.h"
#include <pthread.h>
#include <stdio.h>

#define ACCOUNTS 3

static pthread_mutex_t locks[ACCOUNTS];
static long balances[ACCOUNTS];

static void *move(void *first) {
    for (int64_t i = (long)first; i < pg_in_len(); i += 2) {
        int from = i % ACCOUNTS, to = (i + 1) % ACCOUNTS;
        pthread_mutex_lock(&locks[from < to ? from : to]);
        pthread_mutex_lock(&locks[from < to ? to : from]);
        balances[from] -= pg_in(i);
        balances[to] += pg_in(i);
        pthread_mutex_unlock(&locks[from]);
        pthread_mutex_unlock(&locks[to]);
    }
    return NULL;
}

int main(void) {
    pthread_t one, other;
    for (int i = 0; i < ACCOUNTS; i++) {
        pthread_mutex_init(&locks[i], NULL);
        balances[i] = 1000;
    }
    pthread_create(&one, NULL, move, (void *)0);
    pthread_create(&other, NULL, move, (void *)1);
    pthread_join(one, NULL);
    pthread_join(other, NULL);
    for (int i = 0; i < ACCOUNTS; i++)
        printf("account %d has %ld\n", i, balances[i]);
    return 0;
}
