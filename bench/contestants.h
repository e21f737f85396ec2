/*
 * What is timed side by side: a copy of the data, which is the limit; the C rounder; and the library's two calls.
 */
#ifndef CONTESTANTS_H
#define CONTESTANTS_H

#include <stddef.h>
#include <stdint.h>

enum { COPY, PAPER, WORDS, BYTES, CONTESTANTS };

/* One call, whoever does it: n patterns of `in` are rounded into `out`. The numbers mean what wharfgrain.h says. */
typedef struct {
    uint64_t p, emax, sub, mode, r;
    const uint64_t *words; /* n of them */
    const uint64_t *in;
    uint64_t *out;
    size_t n;
} call;

/* The contestant does the call. A call that the library refuses ends the program. */
void let(int contestant, const call *c);

#endif
