/*
 * The numbers that are rounded. They come from a fixed seed, so that they are the same in every run.
 */
#ifndef INPUTS_H
#define INPUTS_H

#include <stddef.h>
#include <stdint.h>

/*
 * The kinds of data, all of both signs and with random fractions.
 *   NORMAL      exponents of the format's normal numbers, all equally often
 *   MIX         25 % as in SUBNORMAL, 5 % too large, 2 % zeros, 1 % infinities, 1 % NaNs, the rest as in NORMAL
 *   SUBNORMAL   exponents of the format's subnormal numbers, all equally often
 *   ZEROS       one in eight is a zero, the rest as in NORMAL
 * In NORMAL a few lie in the last step, between the largest number and the next power of two.
 */
enum { NORMAL, MIX, SUBNORMAL, ZEROS, KINDS };

extern const char *const kind_names[KINDS];

/* Fills `in` with n patterns of a kind for a format with subnormal numbers that are all normal in binary64. */
void make_inputs(int kind, uint64_t p, uint64_t emax, uint64_t *in, size_t n);

/* Fills `in` with n patterns where rounders go wrong in this format: see the cases in inputs.c. */
void make_edges(uint64_t p, uint64_t emax, uint64_t *in, size_t n);

/* Fills `words` with n random words. */
void make_words(uint64_t *words, size_t n);

#endif
