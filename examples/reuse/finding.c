/* Finds a word in a text by chunks: the numbers make the letters, and each thread looks for the word from the places of its
   chunk on. */
#include "peregrine.h"
#include <pthread.h>
#include <stdio.h>
#include <string.h>

#define THREADS 3
#define MOST 128

struct chunk {
    int first, end;
    int found;
    int place;
};

static char text[MOST + 1];
static const char *word = "aba";
static struct chunk chunks[THREADS];

static int stands_at(const char *at) {
    for (size_t i = 0; i < strlen(word); i++)
        if (at[i] != word[i])
            return 0;
    return 1;
}

static void *look(void *argument) {
    struct chunk *chunk = argument;
    for (int i = chunk->first; i < chunk->end; i++) {
        if (stands_at(text + i)) {
            if (chunk->found == 0)
                chunk->place = i;
            chunk->found++;
        }
    }
    return NULL;
}

int main(void) {
    pthread_t threads[THREADS];
    int length = 0, found = 0, place = -1;
    while (length < pg_in_len() && length < MOST) {
        text[length] = (char)('a' + (uint64_t)pg_in(length) % 3);
        length++;
    }
    for (int i = 0; i < THREADS; i++) {
        chunks[i].first = length * i / THREADS;
        chunks[i].end = length * (i + 1) / THREADS;
        pthread_create(&threads[i], NULL, look, &chunks[i]);
    }
    for (int i = 0; i < THREADS; i++) {
        pthread_join(threads[i], NULL);
        found += chunks[i].found;
        if (place < 0 && chunks[i].found > 0)
            place = chunks[i].place;
    }
    printf("%s stands %d times in %s, first at %d\n", word, found, text, place);
    return 0;
}
