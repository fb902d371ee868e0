/* The division of a scaled number by a whole number (request #107) in C, in the shape of crates/division/src/lib.rt and of `over` in
   crates/encounter/src/arithmetic/wide.rt. What a division lost (request #105) is not formed here. */
#ifndef DIVISION_H
#define DIVISION_H

#include "jinthuol.h"

/* What jinthuol_divide answers: the refusal's number, or 0; the quotient is written to *quotient. It is not returned in a struct of three words:
   gcc 12 forms that in memory, which took longer than the division itself (AMD EPYC). */
uint32_t same_divide(bool up, jinthuol_scaled x, uint32_t k, jinthuol_scaled *quotient);

#endif
