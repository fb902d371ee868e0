/* begin and add of the proved library in C, in the same shape: what that shape takes without Rattle. empty, read and tests 3
   to 6, 11 and 23 are plain.h's. */
#ifndef SAME_H
#define SAME_H

#include "plain.h"

plain_answer same_begin(plain_session *s, jinthuol_encounter E);
plain_answer same_add(plain_session *s, uint16_t count);

#endif
