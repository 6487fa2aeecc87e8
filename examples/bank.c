/* A bank: each thread moves the amounts of the input from one account to the next, under the locks of both. With
   -DRACY nothing is locked: the same program with races. */
#include "peregrine.h"
#include <pthread.h>
#include <stdio.h>

#define ACCOUNTS 4
#define CLERKS 3

static struct {
    pthread_mutex_t lock;
    int64_t balance;
} accounts[ACCOUNTS];

static void lock_both(int a, int b) {
#ifndef RACY
    pthread_mutex_lock(&accounts[a < b ? a : b].lock);
    pthread_mutex_lock(&accounts[a < b ? b : a].lock);
#endif
}

static void unlock_both(int a, int b) {
#ifndef RACY
    pthread_mutex_unlock(&accounts[a].lock);
    pthread_mutex_unlock(&accounts[b].lock);
#endif
}

static void *clerk(void *number) {
    for (int64_t i = 0; i < pg_in_len(); i++) {
        int from = (int)(((long)number + i) % ACCOUNTS), to = (from + 1) % ACCOUNTS;
        lock_both(from, to);
        accounts[from].balance -= pg_in(i);
        accounts[to].balance += pg_in(i);
        unlock_both(from, to);
    }
    return NULL;
}

int main(void) {
    pthread_t clerks[CLERKS];
    for (int i = 0; i < ACCOUNTS; i++) {
        pthread_mutex_init(&accounts[i].lock, NULL);
        accounts[i].balance = 100;
    }
    for (long i = 0; i < CLERKS; i++)
        pthread_create(&clerks[i], NULL, clerk, (void *)i);
    for (int i = 0; i < CLERKS; i++)
        pthread_join(clerks[i], NULL);
    int64_t total = 0;
    for (int i = 0; i < ACCOUNTS; i++)
        total += accounts[i].balance;
    printf("the bank holds %ld\n", (long)total);
    return 0;
}
