/* Transfers between accounts with a lock each: a clerk takes the lock of the one account and tries that of the other; where
   it is held, the clerk gives the first one back and begins again. */
#include "peregrine.h"
#include <pthread.h>
#include <sched.h>
#include <stdio.h>

#define ACCOUNTS 4
#define CLERKS 2
#define LIMIT 100

struct account {
    pthread_mutex_t lock;
    long balance;
    int entries;
};

static struct account accounts[ACCOUNTS];
static int refusals[CLERKS];

static void lock_both(struct account *from, struct account *to) {
    for (;;) {
        pthread_mutex_lock(&from->lock);
        if (pthread_mutex_trylock(&to->lock) == 0)
            return;
        pthread_mutex_unlock(&from->lock);
        sched_yield();
    }
}

static int transfer(struct account *from, struct account *to, long amount) {
    if (amount <= 0 || amount > LIMIT)
        return 0;
    lock_both(from, to);
    from->balance -= amount;
    from->entries++;
    to->balance += amount;
    to->entries++;
    pthread_mutex_unlock(&to->lock);
    pthread_mutex_unlock(&from->lock);
    return 1;
}

static void *clerk(void *argument) {
    int me = (int)(long)argument;
    for (int64_t i = me; i < pg_in_len(); i += CLERKS) {
        struct account *from = &accounts[i % ACCOUNTS];
        struct account *to = &accounts[(i + 1 + i / ACCOUNTS % 3) % ACCOUNTS];
        if (!transfer(from, to, pg_in(i)))
            refusals[me]++;
    }
    return NULL;
}

int main(void) {
    pthread_t clerks[CLERKS];
    for (int i = 0; i < ACCOUNTS; i++) {
        pthread_mutex_init(&accounts[i].lock, NULL);
        accounts[i].balance = 1000;
    }
    for (long i = 0; i < CLERKS; i++)
        pthread_create(&clerks[i], NULL, clerk, (void *)i);
    for (int i = 0; i < CLERKS; i++)
        pthread_join(clerks[i], NULL);
    long sum = 0;
    for (int i = 0; i < ACCOUNTS; i++) {
        printf("account %d has %ld after %d entries\n", i, accounts[i].balance, accounts[i].entries);
        sum += accounts[i].balance;
    }
    printf("the bank has %ld, %d transfers refused\n", sum, refusals[0] + refusals[1]);
    return 0;
}
