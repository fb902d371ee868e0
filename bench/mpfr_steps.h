/* begin, add and read of document 01 with MPFR: 32 bits, MPFR_RNDD and MPFR_RNDU. */
#ifndef MPFR_STEPS_H
#define MPFR_STEPS_H

#include "jinthuol.h"
#include "limits.h"
#include <stdint.h>
#define MPFR_USE_INTMAX_T
#include <mpfr.h>

/* A side's numbers. */
typedef struct {
    mpfr_t u, h, X, Y, t, exponential, c, p, v, y, sum;
} steps_side;

/* The session's numbers, and the two ends that the last read formed. */
typedef struct {
    int made;
    jinthuol_encounter encounter;
    uint32_t object, time;
    uint32_t N;
    steps_side lower, upper;
    mpfr_t r256, M, d;
    mpfr_t lower_end, upper_end;
} steps_session;

typedef struct {
    uint32_t refusal;
    uint32_t N;
    /* 0 clear, 1 alert, 2 open */
    uint32_t class_;
    uint32_t object, time;
} steps_answer;

/* Makes the variables on the first call for a session that was all zero bytes, and empties the session. */
void steps_empty(steps_session *s);
/* The other calls ask for a session that was emptied. */
void steps_copy(steps_session *to, const steps_session *from);
steps_answer steps_begin(steps_session *s, jinthuol_encounter E);
steps_answer steps_add(steps_session *s, uint16_t count);
steps_answer steps_read(steps_session *s);
/* x as m × 2^e, where x is zero or has 32 bits. */
void steps_scaled(const mpfr_t x, uint32_t *m, int32_t *e);

#endif
