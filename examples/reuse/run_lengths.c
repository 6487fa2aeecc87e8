/* Run-length coding by blocks: a thread codes each block of four numbers, and main decodes what they made and compares it
   with the input. */
#include "peregrine.h"
#include <pthread.h>
#include <stdio.h>
#include <stdlib.h>

#define BLOCK 4
#define MOST_BLOCKS 16

struct run {
    int64_t value;
    int count;
};

struct block {
    int length;
    int run_count;
    int64_t numbers[BLOCK];
    struct run runs[BLOCK];
};

static void *code(void *argument) {
    struct block *block = argument;
    int count = 0;
    for (int i = 0; i < block->length; i++) {
        if (count > 0 && block->runs[count - 1].value == block->numbers[i]) {
            block->runs[count - 1].count++;
        } else {
            block->runs[count].value = block->numbers[i];
            block->runs[count].count = 1;
            count++;
        }
    }
    block->run_count = count;
    return NULL;
}

static struct block *new_block(int64_t first) {
    struct block *block = malloc(sizeof *block);
    block->length = 0;
    for (int64_t i = first; i < pg_in_len() && i < first + BLOCK; i++)
        block->numbers[block->length++] = pg_in(i);
    return block;
}

/* how many numbers of the block come out as they went in */
static int compare(const struct block *block) {
    int at = 0, same = 0;
    for (int i = 0; i < block->run_count; i++)
        for (int k = 0; k < block->runs[i].count; k++)
            if (block->runs[i].value == block->numbers[at++])
                same++;
    return same;
}

int main(void) {
    struct block *blocks[MOST_BLOCKS];
    pthread_t coders[MOST_BLOCKS];
    int count = 0, runs = 0, same = 0;
    for (int64_t first = 0; first < pg_in_len() && count < MOST_BLOCKS; first += BLOCK) {
        blocks[count] = new_block(first);
        pthread_create(&coders[count], NULL, code, blocks[count]);
        count++;
    }
    for (int i = 0; i < count; i++) {
        pthread_join(coders[i], NULL);
        printf("block %d: %d numbers in %d runs\n", i, blocks[i]->length, blocks[i]->run_count);
        runs += blocks[i]->run_count;
        same += compare(blocks[i]);
    }
    printf("%d runs, %d of %ld numbers decoded\n", runs, same, (long)pg_in_len());
    return 0;
}
