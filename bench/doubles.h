/* begin and add of document 01 in doubles: what the floating-point unit can do with directed rounding; no proof here
   reaches it. empty, read and the exponential are plain.h's. */
#ifndef DOUBLES_H
#define DOUBLES_H

#include "plain.h"

plain_answer doubles_begin(plain_session *s, jinthuol_encounter E);
plain_answer doubles_add(plain_session *s, uint16_t count);

#endif
