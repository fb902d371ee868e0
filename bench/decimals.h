/* Decimals of scaled numbers (request #103) in C, in the shape of crates/encounter/src/decimals.rt, but with the table of powers of ten in memory. */
#ifndef DECIMALS_H
#define DECIMALS_H

#include "jinthuol.h"

/* Computes the table. */
void fill_powers(void);

/* What jinthuol_to_decimal answers. */
jinthuol_decimal same_decimal(bool up, jinthuol_scaled x);

#endif
