/* Both sides at once, in doubles. A pair is {lower, -upper} and the hardware rounds downward throughout, so the lower
   side is rounded down and the upper side's magnitude up, to 53 bits. Cutting to 32 bits in the same direction then
   gives D and U of the exact result. */
#include "doubles.h"
#include <float.h>
#include <string.h>

#if FLT_EVAL_METHOD != 0
#error "a double operation has to round to 53 bits"
#endif

#define INLINE static inline __attribute__((always_inline))
#define UNLIKELY(x) __builtin_expect(x, 0)

typedef double pair __attribute__((vector_size(16)));
typedef int64_t bits __attribute__((vector_size(16)));

/* The 21 bits of a double below its first 32. */
#define LOW 0x1fffffll

/* The direction of rounding. It is set around calls of functions that are not inlined, so no operation moves across. */
#ifdef __SSE2__
#include <xmmintrin.h>
typedef unsigned direction;
INLINE direction downward(void)
{
    unsigned before = _mm_getcsr();
    _mm_setcsr((before & ~0x6000u) | 0x2000u);
    return before;
}
INLINE void restore(direction before)
{
    _mm_setcsr(before);
}
#else
#include <fenv.h>
typedef int direction;
INLINE direction downward(void)
{
    int before = fegetround();
    fesetround(FE_DOWNWARD);
    return before;
}
INLINE void restore(direction before)
{
    fesetround(before);
}
#endif

/* From 53 to 32 bits: the lower side down, the upper side's magnitude up. A carry goes on into the exponent. */
INLINE pair cut(pair x)
{
    const bits up = {0, LOW};
    return (pair)(((bits)x + up) & ~LOW);
}

INLINE pair both(double x)
{
    return (pair){x, x};
}

/* {lower, upper}: a factor, where the other factor is {lower, -upper}. */
INLINE pair factor(pair x)
{
    return (pair)((bits)x & INT64_MAX);
}

INLINE pair product(pair a, pair b)
{
    return cut(a * b);
}

INLINE pair sum(pair a, pair b)
{
    return cut(a + b);
}

INLINE pair quotient(pair a, pair b)
{
    return cut(a / b);
}

/* a / k by way of 1/k rounded down. The product is off by less than 4 units of its last place, so its cut is right
   unless a number of 32 bits is that close; then a is divided. */
INLINE pair over(pair a, pair k, pair reciprocal)
{
    pair q = a * reciprocal;
    bits near = ((bits)q + 4) & LOW;
    if (UNLIKELY(near[0] <= 8 || near[1] <= 8))
        q = a / k;
    return cut(q);
}

/* {n/d, -n/d} of whole numbers below 2^53. */
INLINE pair ratio(int64_t n, int64_t d)
{
    return quotient((pair){(double)n, -(double)n}, both((double)d));
}

/* m × 2^e / 2^scale. */
INLINE double from_scaled(plain_scaled a, int64_t scale)
{
    uint64_t b = (uint64_t)(a.e + 31 - scale + 1023) << 52 | (uint64_t)(a.m & 0x7fffffff) << 21;
    double x;
    memcpy(&x, &b, sizeof x);
    return a.m ? x : 0;
}

/* The magnitude of x × 2^scale. */
INLINE plain_scaled to_scaled(double x, int64_t scale)
{
    int64_t b;
    memcpy(&b, &x, sizeof b);
    b &= INT64_MAX;
    if (b == 0)
        return (plain_scaled){0, 0};
    return (plain_scaled){0x80000000u | (uint32_t)(b >> 21), (int32_t)((b >> 52) - 1023 - 31 + scale)};
}

INLINE pair pair_of(plain_scaled lower, plain_scaled upper, int64_t scale)
{
    return (pair){from_scaled(lower, scale), -from_scaled(upper, scale)};
}

INLINE void put(plain_scaled *lower, plain_scaled *upper, pair x, int64_t scale)
{
    *lower = to_scaled(x[0], scale);
    *upper = to_scaled(x[1], scale);
}

/* Numbers that leave the range of doubles are held divided by 2^scale. */
#define STEP 256
static const double SMALL = 0x1p-256, LARGE = 0x1p128;

/* Stands for a number below 2^-100 that is added to one above 2^-50: all that counts is that it is not zero. */
static const pair TINY = {0x1p-200, -0x1p-200};

/* The session at order 1, or the number of the test that refuses, 7 or 11. */
static __attribute__((noinline)) uint32_t open_session(plain_session *s, jinthuol_encounter E)
{
    int64_t R = E.R, sx = E.sx, sy = E.sy, xm = E.xm, ym = E.ym;
    pair u = ratio(R * R, 2 * sy * sy);
    pair zx = ratio(xm * xm, 2 * sx * sx), zy = ratio(ym * ym, 2 * sy * sy);
    pair t = sum(sum(zx, zy), u);
    if (t[1] < -64)
        return 7;
    pair b = ratio(R * R, 2 * sx * sx);
    pair g = ratio(sx * sx - sy * sy, sx * sx);
    pair h = product(u, factor(g)), X = product(zx, factor(b)), Y = product(zy, factor(u));
    pair M = sum(sum(sum(u, h * both(0.5)), X), Y);
    if (2 * M[1] < -(LARGEST_ORDER + 2))
        return 11;
    pair c = ratio(R * R, 2 * sx * sy);
    pair p = product(c, factor(u));
    pair d = product(c, factor(M)) * both(0.5);
    s->encounter = E;
    s->object = s->time = 0;
    s->N = 1;
    put(&s->lower.u, &s->upper.u, u, 0);
    put(&s->lower.h, &s->upper.h, h, 0);
    put(&s->lower.X, &s->upper.X, X, 0);
    put(&s->lower.Y, &s->upper.Y, Y, 0);
    put(&s->lower.t, &s->upper.t, t, 0);
    /* one chain of products and quotients: whole numbers are quicker there */
    plain_exponentials(s);
    put(&s->lower.c, &s->upper.c, c, 0);
    put(&s->lower.p, &s->upper.p, p, 0);
    s->lower.v = s->lower.y = s->lower.sum = s->lower.c;
    s->upper.v = s->upper.y = s->upper.sum = s->upper.c;
    s->M = to_scaled(M[1], 0);
    s->d = to_scaled(d[1], 0);
    return 0;
}

/* From order s->N to order N. The steps are the same for any multiple of c, p, v and y, so these have one scale, a
   multiple of STEP; d has its own. Here p, u, X and Y are doubled in place of halving h × v. */
static __attribute__((noinline)) void advance(plain_session *s, uint32_t N)
{
    plain_side *a = &s->lower, *b = &s->upper;
    int64_t scale = a->c.e + 31 < -STEP ? (a->c.e + 31) / STEP * STEP : 0, d_scale = s->d.e + 31;
    pair u = factor(pair_of(a->u, b->u, -1)), h = factor(pair_of(a->h, b->h, 0));
    pair X = factor(pair_of(a->X, b->X, -1)), Y = factor(pair_of(a->Y, b->Y, -1));
    pair c = pair_of(a->c, b->c, scale), p = pair_of(a->p, b->p, scale - 1);
    pair v = pair_of(a->v, b->v, scale), y = pair_of(a->y, b->y, scale);
    pair total = pair_of(a->sum, b->sum, 0);
    pair d = {0, -from_scaled(s->d, d_scale)}, M = both(from_scaled(s->M, 0));
    double last = N;
    for (double n = s->N; n < last; n += 1) {
        pair k = both(n + 1), kk = both(2 * n) * k;
        pair hv = product(h, v), hy = product(h, y);
        pair all = sum(sum(sum(p, hv), product(X, y)), product(Y, c));
        c = over(all, kk, both(1) / kk);
        p = product(u, sum(c, quotient(p, k + k)));
        v = sum(c, quotient(hv, k));
        y = sum(v, quotient(hy, k));
        total = sum(total, scale ? TINY : c);
        d = quotient(product(d, M), k + both(1));
        if (UNLIKELY(c[0] < SMALL || (scale && c[0] > LARGE))) {
            pair by = both(c[0] < SMALL ? 0x1p256 : 0x1p-256);
            scale += c[0] < SMALL ? -STEP : STEP;
            c *= by;
            p *= by;
            v *= by;
            y *= by;
        }
        if (UNLIKELY(d[1] > -0x1p-256)) {
            d *= both(0x1p256);
            d_scale -= STEP;
        } else if (UNLIKELY(d[1] < -0x1p256)) {
            d *= both(0x1p-256);
            d_scale += STEP;
        }
    }
    put(&a->c, &b->c, c, scale);
    put(&a->p, &b->p, p, scale - 1);
    put(&a->v, &b->v, v, scale);
    put(&a->y, &b->y, y, scale);
    put(&a->sum, &b->sum, total, 0);
    s->d = to_scaled(d[1], d_scale);
    s->N = N;
}

static plain_answer refuse(uint32_t refusal)
{
    return (plain_answer){.refusal = refusal};
}

plain_answer doubles_begin(plain_session *s, jinthuol_encounter E)
{
    uint32_t first = plain_tests(E);
    if (first)
        return refuse(first);
    direction before = downward();
    uint32_t refusal = open_session(s, E);
    restore(before);
    return refusal ? refuse(refusal) : (plain_answer){.N = 1};
}

plain_answer doubles_add(plain_session *s, uint16_t count)
{
    if (count == 0)
        return refuse(12);
    if (s->N == 0)
        return refuse(21);
    uint32_t N = s->N + count;
    if (N > LARGEST_ORDER)
        return refuse(22);
    direction before = downward();
    advance(s, N);
    restore(before);
    return (plain_answer){.N = N};
}
