/* Counters without a lock: each door's thread adds its visitors to one count, and looks for the fullest moment. What is
   printed hangs on the order of the threads. */
#include "peregrine.h"
#include <pthread.h>
#include <stdio.h>

#define DOORS 3

static long inside, most;

static void *door(void *argument) {
    for (int64_t i = (long)argument; i < pg_in_len(); i += DOORS) {
        inside = inside + pg_in(i);
        if (inside > most)
            most = inside;
    }
    return NULL;
}

int main(void) {
    pthread_t doors[DOORS];
    for (long i = 0; i < DOORS; i++)
        pthread_create(&doors[i], NULL, door, (void *)i);
    for (int i = 0; i < DOORS; i++)
        pthread_join(doors[i], NULL);
    printf("%ld inside, %ld at most\n", inside, most);
    return 0;
}
