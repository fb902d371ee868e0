/* The advised order (request #106) in C, in the shape of crates/advice/src/entry.rt, but with the table of orders in memory. */
#ifndef ADVICE_H
#define ADVICE_H

#include "jinthuol.h"

/* Computes the table. */
void fill_orders(void);

/* What jinthuol_advise answers. */
jinthuol_advice same_advice(jinthuol_session session);

#endif
