/*
 * The tables of times, in ns per element. A row's contestants take turns, round by round. A time is the median of
 * all rounds, and so is a ratio, which is taken in each round.
 */
#ifndef TIMING_H
#define TIMING_H

#include "rows.h"

enum { MOST_ROUNDS = 101, SIZES = 3 };

/* How many rows there are, and how many of them miss a target: for words, and for bytes. */
typedef struct {
    int rows, words, bytes;
} tally;

/* A line for each chosen row, on n inputs. What misses its target is marked. */
tally time_rows(choice wanted, arrays lent, size_t n, int rounds);

/*
 * A line for each chosen row of one format, on as many inputs as the last size has. They are done in calls of each
 * size, so that the sizes differ in nothing else, such as what the processor's caches hold.
 */
tally time_growth(choice wanted, arrays lent, const size_t sizes[SIZES], int rounds);

#endif
