/* Breadth first by levels: a graph with two edges from each place, which the numbers make. Two threads go through the places
   of a level, and meet at a barrier behind it; main prints how far each place is. */
#include "peregrine.h"
#include <pthread.h>
#include <stdio.h>

#define THREADS 2
#define MOST 64
#define FAR (-1)

static int edges[MOST][2];
static int distance[MOST];
static int places, found[2];
static pthread_barrier_t barrier;

static void *search(void *argument) {
    long me = (long)argument;
    for (int level = 0;; level++) {
        for (int place = (int)me; place < places; place += THREADS) {
            if (distance[place] != level)
                continue;
            for (int k = 0; k < 2; k++) {
                int next = edges[place][k];
                if (distance[next] == FAR) {
                    distance[next] = level + 1;
                    found[level % 2] = 1;
                }
            }
        }
        pthread_barrier_wait(&barrier);
        int goes_on = found[level % 2];
        if (me == 0)
            found[(level + 1) % 2] = 0;
        pthread_barrier_wait(&barrier);
        if (!goes_on)
            return NULL;
    }
}

int main(void) {
    pthread_t threads[THREADS];
    places = (int)(pg_in_len() < MOST ? pg_in_len() : MOST);
    for (int i = 0; i < places; i++) {
        long n = (long)pg_in(i);
        if (n < 0)
            n = -n;
        edges[i][0] = (int)(n % places);
        edges[i][1] = (i + 1) % places;
        distance[i] = i == 0 ? 0 : FAR;
    }
    pthread_barrier_init(&barrier, NULL, THREADS);
    for (long i = 0; i < THREADS; i++)
        pthread_create(&threads[i], NULL, search, (void *)i);
    for (int i = 0; i < THREADS; i++)
        pthread_join(threads[i], NULL);
    for (int i = 0; i < places; i++)
        printf("%d ", distance[i]);
    printf("\n");
    return 0;
}
