/* begin, add and read of document 01 in whole numbers, in plain C with no proof: the same rounded steps as the proved
   library's, written to be fast. begin_conjunction of request #104 is in calls.h, over each contender's begin. The exact
   terms of request #105 are not counted. */
#ifndef PLAIN_H
#define PLAIN_H

#include "jinthuol.h"
#include "limits.h"
#include <stdint.h>

/* A scaled number m × 2^e. */
typedef struct {
    uint32_t m;
    int32_t e;
} plain_scaled;

/* A side's letters, its exponential sum, c, p, v and y at N - 1, and its sum of c(0) to c(N - 1). */
typedef struct {
    plain_scaled u, h, X, Y, t, exponential, c, p, v, y, sum;
} plain_side;

/* The numbers that document 01 and request #104 have a session hold; N is 0 where no encounter was begun. */
typedef struct {
    jinthuol_encounter encounter;
    uint32_t object, time;
    uint32_t N;
    plain_side lower, upper;
    plain_scaled r256, M, d;
} plain_session;

/* The refusal's number, or 0; then the order, both ends, the class (0 clear, 1 alert, 2 open), the object number and the
   time. */
typedef struct {
    uint32_t refusal;
    uint32_t N;
    plain_scaled lower, upper;
    uint32_t class_;
    uint32_t object, time;
} plain_answer;

plain_session plain_empty(void);
plain_answer plain_begin(plain_session *s, jinthuol_encounter E);
plain_answer plain_add(plain_session *s, uint16_t count);
plain_answer plain_read(const plain_session *s);

/* Tests 3 to 6: the number of the first that refuses, or 0. */
static inline uint32_t plain_tests(jinthuol_encounter E)
{
    const uint32_t most = 10000000;
    if (E.R - 1 >= most)
        return 3;
    if (E.sx - 1 >= most || E.sy - 1 >= most)
        return 4;
    if (E.sy > E.sx)
        return 5;
    return (uint32_t)E.xm + most > 2 * most || (uint32_t)E.ym + most > 2 * most ? 6 : 0;
}

/* Test 23 at order N: whether 2M is above N + 2. At the largest order it is test 11. */
static inline int plain_refuses_23(plain_scaled M, uint32_t N)
{
    int shift = __builtin_clz(N + 2), e = -shift - 1;
    return M.e > e || (M.e == e && M.m > (N + 2) << shift);
}

/* Both exponential sums and the upper r(256), from the session's two t. */
void plain_exponentials(plain_session *s);

#endif
