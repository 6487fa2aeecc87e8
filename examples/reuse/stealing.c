/* Work stealing: each worker has a queue of tasks and takes its own from the back; where that is empty, it steals from the
   front of another's. A task is to count the steps of a number to 1, halved where it is even, else three times it and one. */
#include "peregrine.h"
#include <pthread.h>
#include <stdio.h>

#define WORKERS 3
#define MOST_TASKS 512
#define MOST_STEPS 60

struct queue {
    pthread_mutex_t lock;
    int front, back;
    int64_t tasks[MOST_TASKS];
};

struct worker {
    pthread_t thread;
    int number;
    int done;
    long steps;
};

static struct queue queues[WORKERS];
static struct worker workers[WORKERS];

static void push(struct queue *queue, int64_t task) {
    pthread_mutex_lock(&queue->lock);
    queue->tasks[queue->back++] = task;
    pthread_mutex_unlock(&queue->lock);
}

static int pop(struct queue *queue, int64_t *task) {
    int found = 0;
    pthread_mutex_lock(&queue->lock);
    if (queue->front < queue->back) {
        *task = queue->tasks[--queue->back];
        found = 1;
    }
    pthread_mutex_unlock(&queue->lock);
    return found;
}

static int steal(struct queue *queue, int64_t *task) {
    int found = 0;
    pthread_mutex_lock(&queue->lock);
    if (queue->front < queue->back) {
        *task = queue->tasks[queue->front++];
        found = 1;
    }
    pthread_mutex_unlock(&queue->lock);
    return found;
}

static int next_task(int me, int64_t *task) {
    if (pop(&queues[me], task))
        return 1;
    for (int i = 1; i < WORKERS; i++)
        if (steal(&queues[(me + i) % WORKERS], task))
            return 1;
    return 0;
}

static long count_steps(int64_t n) {
    long steps = 0;
    while (n > 1 && steps < MOST_STEPS) {
        n = n % 2 == 0 ? n / 2 : 3 * n + 1;
        steps++;
    }
    return steps;
}

static void *work(void *argument) {
    struct worker *self = argument;
    int64_t task;
    while (next_task(self->number, &task)) {
        self->steps += count_steps(task);
        self->done++;
    }
    return NULL;
}

int main(void) {
    for (int i = 0; i < WORKERS; i++) {
        pthread_mutex_init(&queues[i].lock, NULL);
        workers[i].number = i;
    }
    for (int64_t i = 0; i < pg_in_len(); i++)
        push(&queues[i % 5 % WORKERS], pg_in(i));
    for (int i = 0; i < WORKERS; i++)
        pthread_create(&workers[i].thread, NULL, work, &workers[i]);
    int done = 0;
    long steps = 0;
    for (int i = 0; i < WORKERS; i++) {
        pthread_join(workers[i].thread, NULL);
        done += workers[i].done;
        steps += workers[i].steps;
    }
    printf("%d tasks took %ld steps\n", done, steps);
    return 0;
}
