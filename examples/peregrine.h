/* A program's input and output under Peregrine. The same names are there natively with native.c. */
#ifndef PEREGRINE_H
#define PEREGRINE_H

#include <stdint.h>

/* the input's number at this index, counted from 0; 0 outside of the input */
int64_t pg_in(int64_t index);

/* how many numbers the input has, at most 512 */
int64_t pg_in_len(void);

/* prints a number in decimal and a line feed, as one turn */
void pg_out(int64_t value);

/* prints a number in decimal and nothing behind it, as one turn */
void pg_print(int64_t value);

#endif
