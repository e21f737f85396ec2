/*
 * Before anything is measured: that the C rounder and the library's two calls give the same answers.
 */
#ifndef AGREEMENT_H
#define AGREEMENT_H

#include "rows.h"

/*
 * Compares every answer: in the chosen rows, on n inputs each, and on the edges of several formats. `others` has
 * room for n answers each. Where all agree it says so, and answers 1; else standard error gets the first
 * difference, and the answer is 0.
 */
int all_agree(choice wanted, arrays lent, uint64_t *const others[2], size_t n);

#endif
