/* The week (request #111) in C without proof, over the sessions of plain.h. */
#ifndef WEEK_H
#define WEEK_H

#include "plain.h"

/* What jinthuol_enter and jinthuol_week_ends answer, by value as they are. */
jinthuol_entered plain_enter(jinthuol_week week, uint32_t day, plain_session session);
jinthuol_ends plain_week_ends(jinthuol_week week);

/* The same with no copy of the week or the session: the week is changed in place, and the answer is the refusal's number. */
uint32_t lent_enter(jinthuol_week *week, uint32_t day, const plain_session *session);
jinthuol_ends lent_week_ends(const jinthuol_week *week);

#endif
