/*
 * How many instructions the rounders execute. Nothing else on the machine can disturb that.
 */
#ifndef INSTRUCTIONS_H
#define INSTRUCTIONS_H

#include "rows.h"

/*
 * A line for each chosen row, on n inputs: of normal and subnormal data, where no kind is chosen. Or one line, that
 * they cannot be counted.
 */
void count_instructions(choice wanted, arrays lent, size_t n);

#endif
