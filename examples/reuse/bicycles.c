/* A factory of bicycles: one thread makes frames, one makes wheels, two a bicycle, one puts them together, and one packs
   them. The store has little room, and a condition variable for each thing that is waited for. The numbers are weights. */
#include "peregrine.h"
#include <pthread.h>
#include <stdio.h>

#define ROOM 2
#define WHEEL 3

static struct {
    pthread_mutex_t lock;
    pthread_cond_t frame_came, wheel_came, bicycle_came, room_came;
    int frames, wheels, bicycles;
    long frame_weights[ROOM], bicycle_weights[ROOM];
    int first_frame, first_bicycle;
} store = {.lock = PTHREAD_MUTEX_INITIALIZER};

static void *make_frames(void *unused) {
    for (int64_t i = 0; i < pg_in_len(); i++) {
        pthread_mutex_lock(&store.lock);
        while (store.frames == ROOM)
            pthread_cond_wait(&store.room_came, &store.lock);
        store.frame_weights[(store.first_frame + store.frames) % ROOM] = pg_in(i);
        store.frames++;
        pthread_cond_signal(&store.frame_came);
        pthread_mutex_unlock(&store.lock);
    }
    return unused;
}

static void *make_wheels(void *unused) {
    for (int64_t i = 0; i < 2 * pg_in_len(); i++) {
        pthread_mutex_lock(&store.lock);
        while (store.wheels == 2 * ROOM)
            pthread_cond_wait(&store.room_came, &store.lock);
        store.wheels++;
        if (store.wheels >= 2)
            pthread_cond_signal(&store.wheel_came);
        pthread_mutex_unlock(&store.lock);
    }
    return unused;
}

static void *assemble(void *unused) {
    for (int64_t i = 0; i < pg_in_len(); i++) {
        pthread_mutex_lock(&store.lock);
        while (store.frames == 0)
            pthread_cond_wait(&store.frame_came, &store.lock);
        while (store.wheels < 2)
            pthread_cond_wait(&store.wheel_came, &store.lock);
        while (store.bicycles == ROOM)
            pthread_cond_wait(&store.room_came, &store.lock);
        long weight = store.frame_weights[store.first_frame] + 2 * WHEEL;
        store.first_frame = (store.first_frame + 1) % ROOM;
        store.frames--;
        store.wheels -= 2;
        store.bicycle_weights[(store.first_bicycle + store.bicycles) % ROOM] = weight;
        store.bicycles++;
        pthread_cond_signal(&store.bicycle_came);
        pthread_cond_broadcast(&store.room_came);
        pthread_mutex_unlock(&store.lock);
    }
    return unused;
}

static void *pack(void *unused) {
    long total = 0, heavy = 0;
    for (int64_t i = 0; i < pg_in_len(); i++) {
        pthread_mutex_lock(&store.lock);
        while (store.bicycles == 0)
            pthread_cond_wait(&store.bicycle_came, &store.lock);
        long weight = store.bicycle_weights[store.first_bicycle];
        store.first_bicycle = (store.first_bicycle + 1) % ROOM;
        store.bicycles--;
        pthread_cond_broadcast(&store.room_came);
        pthread_mutex_unlock(&store.lock);
        if (weight > 20)
            heavy++;
        total += weight;
        printf("bicycle %d weighs %ld\n", (int)i + 1, weight);
    }
    printf("%ld in all, %ld heavy ones\n", total, heavy);
    return unused;
}

int main(void) {
    pthread_t threads[4];
    pthread_cond_init(&store.frame_came, NULL);
    pthread_cond_init(&store.wheel_came, NULL);
    pthread_cond_init(&store.bicycle_came, NULL);
    pthread_cond_init(&store.room_came, NULL);
    pthread_create(&threads[0], NULL, make_frames, NULL);
    pthread_create(&threads[1], NULL, make_wheels, NULL);
    pthread_create(&threads[2], NULL, assemble, NULL);
    pthread_create(&threads[3], NULL, pack, NULL);
    for (int i = 0; i < 4; i++)
        pthread_join(threads[i], NULL);
    return 0;
}
