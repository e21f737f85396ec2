/*
 * What is measured: a row for each format, mode and kind of data, of which some may be chosen.
 */
#ifndef ROWS_H
#define ROWS_H

#include "contestants.h"

enum { FORMATS = 3, MODES = 9, ALL = -1 };

typedef struct {
    const char *name;
    uint64_t p, emax; /* all of them have subnormal numbers */
} format;

extern const format formats[FORMATS];

typedef struct {
    int format, mode, kind;
} row;

/* The rows that are wanted: one format, mode or kind, or ALL of them. */
typedef row choice;

#define BEFORE_THE_FIRST {0, 0, -1}

/* Steps to the next chosen row, and answers 1; or 0 where there is none. */
int next_row(choice wanted, row *at);

/* The arrays that calls use, with room for the longest. */
typedef struct {
    uint64_t *words, *in, *out;
} arrays;

/* The row's call on n inputs, which are made here. */
call call_of_row(const row *at, arrays lent, size_t n);

/* The columns of a table that name a row, and what stands above them. */
void print_heads(void);
void print_row(const row *at);

#endif
