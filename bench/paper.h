/*
 * The C rounder that the library is timed against. It is our own, and follows the CPFloat paper, source
 * document 000, sections 5 and 6. Its answers are those of document 01.
 */
#ifndef PAPER_H
#define PAPER_H

#include <stddef.h>
#include <stdint.h>

/*
 * Rounds n patterns of `in` into `out`. The arguments mean what they mean in wharfgrain.h, but none is checked.
 * Modes 7 and 8 use n words, and the others none.
 */
void paper_round(uint64_t p, uint64_t emax, uint64_t sub, uint64_t mode, uint64_t r,
                 const uint64_t *words, const uint64_t *in, uint64_t *out, size_t n);

#endif
