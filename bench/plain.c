/* Whole numbers only; no direction of rounding is set.

   In the loops a number m × 2^e is held as a word and e. The lower side's word is m × 2^31. The upper side's word is
   m × 2^31 - 1, with m from 2^31 + 1 to 2^32. To round, the word loses its last 31 bits on the lower side and has them
   set on the upper side. Both sides share e, and all that is done with it, as long as their exponents are the same;
   where they are not, the sides go through the same steps one by one. */
#include "plain.h"

typedef uint64_t u64;
typedef int64_t i64;

#define INLINE static inline __attribute__((always_inline))
#define UNLIKELY(x) __builtin_expect(x, 0)

#define LOW 0x7fffffffull
#define TOP (1ull << 63)

/* Both sides of a number: their words and the exponent. */
typedef struct {
    u64 lower, upper;
    i64 e;
} pair;

/* Both sides of a letter: u, h, X, Y, M or t, with m itself; e has 31 added. */
typedef struct {
    u64 lower, upper;
    i64 e;
} letter;

/* The side whose exponent is used; the other side's word means nothing unless it has the same one. */
enum by { LOWER, UPPER };

/* TOP is set in it once the sides' exponents differed. */
typedef u64 differ;

INLINE pair taken(enum by by, plain_scaled lower, plain_scaled upper, differ *odd)
{
    int power = upper.m == 0x80000000u;
    i64 e = upper.e - power;
    *odd |= e != lower.e ? TOP : 0;
    return (pair){(u64)lower.m << 31, ((u64)upper.m << (31 + power)) - 1, by == UPPER ? e : lower.e};
}

INLINE letter letter_of(enum by by, plain_scaled lower, plain_scaled upper, differ *odd)
{
    *odd |= upper.e != lower.e ? TOP : 0;
    return (letter){lower.m, upper.m, (by == UPPER ? upper.e : lower.e) + 31};
}

INLINE plain_scaled lower_of(pair a)
{
    return (plain_scaled){(uint32_t)(a.lower >> 31), (int32_t)a.e};
}

INLINE plain_scaled upper_of(pair a)
{
    u64 m = (a.upper >> 31) + 1, power = m >> 32;
    return (plain_scaled){(uint32_t)(m >> power), (int32_t)(a.e + (i64)power)};
}

/* Rounds words of 63 or 64 bits. */
INLINE pair cut(enum by by, u64 lower, u64 upper, i64 e, differ *odd)
{
    u64 s = (by == UPPER ? upper : lower) >> 63;
    *odd |= lower ^ upper;
    return (pair){(lower >> s) & ~LOW, (upper >> s) | LOW, e + (i64)s};
}

INLINE pair times(enum by by, letter l, pair a, differ *odd)
{
    return cut(by, (a.lower >> 31) * l.lower, (a.upper >> 31) * l.upper + (l.upper - 1), a.e + l.e, odd);
}

INLINE pair plus(enum by by, pair a, pair b, differ *odd)
{
    i64 gap = a.e - b.e;
    if (gap >= 0) {
        gap = gap < 63 ? gap : 63;
        return cut(by, a.lower + (b.lower >> gap), a.upper + (b.upper >> gap) + 1, a.e, odd);
    }
    gap = -gap < 63 ? -gap : 63;
    return cut(by, b.lower + (a.lower >> gap), b.upper + (a.upper >> gap) + 1, b.e, odd);
}

INLINE pair half(pair a)
{
    a.e--;
    return a;
}

/* For a whole k: the length s of k - 1 in bits; a word at most 2^(63 + s) / k; and what to add to twice a number's
   lower word so that its product with the word is not too small. */
typedef struct {
    u64 word;
    i64 s;
    u64 more;
} reciprocal;

INLINE i64 length(u64 k)
{
    return 64 - __builtin_clzll(k);
}

/* For k from 2 to LARGEST_ORDER + 1: the word is off by less than 2^13. */
INLINE reciprocal of_short(u64 k)
{
    i64 s = length(k - 1);
    return (reciprocal){TOP / k << s, s, 1 << 14};
}

/* For k from 2 to 2^24: the word is off by less than 1. */
INLINE reciprocal of_long(u64 k)
{
    i64 s = length(k - 1);
    u64 n = 1ull << (31 + s), high = n / k, rest = n - high * k;
    return (reciprocal){high << 32 | (rest << 32) / k, s, 2};
}

INLINE u64 upper_half(u64 a, u64 b)
{
    return (u64)((unsigned __int128)a * b >> 64);
}

/* Before the cut the lower word is not below the whole part of its exact value, and the upper one is below its exact
   value; both are off by less than 2^14 for a short k and by less than 4 for a long one. An exact value that needs
   rounding is at least 2^31 / k away from one that does not, that is 2^18 and 2^7, so both cuts are right. */
INLINE pair over(enum by by, pair a, reciprocal k, differ *odd)
{
    return cut(by, upper_half(2 * a.lower + k.more, k.word), upper_half(2 * a.upper + 1, k.word), a.e - k.s, odd);
}

typedef struct {
    letter u, h, X, Y;
} letters;

typedef struct {
    pair c, p, v, y, sum;
} terms;

INLINE letters letters_of(enum by by, const plain_session *s, differ *odd)
{
    const plain_side *a = &s->lower, *b = &s->upper;
    return (letters){letter_of(by, a->u, b->u, odd), letter_of(by, a->h, b->h, odd), letter_of(by, a->X, b->X, odd),
                     letter_of(by, a->Y, b->Y, odd)};
}

INLINE terms terms_of(enum by by, const plain_session *s, differ *odd)
{
    const plain_side *a = &s->lower, *b = &s->upper;
    return (terms){taken(by, a->c, b->c, odd), taken(by, a->p, b->p, odd), taken(by, a->v, b->v, odd),
                   taken(by, a->y, b->y, odd), taken(by, a->sum, b->sum, odd)};
}

INLINE void put_lower(plain_session *s, const terms *a)
{
    s->lower.c = lower_of(a->c);
    s->lower.p = lower_of(a->p);
    s->lower.v = lower_of(a->v);
    s->lower.y = lower_of(a->y);
    s->lower.sum = lower_of(a->sum);
}

INLINE void put_upper(plain_session *s, const terms *a)
{
    s->upper.c = upper_of(a->c);
    s->upper.p = upper_of(a->p);
    s->upper.v = upper_of(a->v);
    s->upper.y = upper_of(a->y);
    s->upper.sum = upper_of(a->sum);
}

/* From index n - 1 to index n, with k for n + 1 and kk for n(n + 1). A letter is zero on both sides or on neither. */
INLINE terms next_terms(enum by by, const letters *l, terms a, reciprocal k, reciprocal kk, differ *odd)
{
    pair all = a.p, hv = {0}, hy = {0};
    if (l->h.lower) {
        hv = times(by, l->h, a.v, odd);
        hy = times(by, l->h, a.y, odd);
        all = plus(by, all, half(hv), odd);
    }
    if (l->X.lower)
        all = plus(by, all, times(by, l->X, a.y, odd), odd);
    if (l->Y.lower)
        all = plus(by, all, times(by, l->Y, a.c, odd), odd);
    a.c = a.v = a.y = over(by, all, kk, odd);
    a.p = times(by, l->u, plus(by, a.c, over(by, a.p, k, odd), odd), odd);
    if (l->h.lower) {
        a.v = plus(by, a.c, over(by, hv, k, odd), odd);
        a.y = plus(by, a.v, over(by, hy, k, odd), odd);
    }
    a.sum = plus(by, a.sum, a.c, odd);
    return a;
}

/* d from the one before, with k for what it is divided by. */
INLINE pair next_tail(letter M, pair d, reciprocal k)
{
    differ unused = 0;
    return over(UPPER, times(UPPER, M, d, &unused), k, &unused);
}

/* From order s->N to order N, or to the order where the sides' exponents differ. */
INLINE void advance_both(plain_session *s, u64 N)
{
    differ odd = 0, unused = 0;
    letters l = letters_of(LOWER, s, &odd);
    terms a = terms_of(LOWER, s, &odd);
    letter M = letter_of(UPPER, s->M, s->M, &unused);
    pair d = taken(UPPER, s->d, s->d, &unused);
    if (odd)
        return;
    u64 n = s->N;
    for (reciprocal k = of_short(n + 1); n < N; n++) {
        terms next = next_terms(LOWER, &l, a, k, of_long(n * (n + 1)), &odd);
        if (UNLIKELY(odd >> 63))
            break;
        a = next;
        k = of_short(n + 2);
        d = next_tail(M, d, k);
    }
    put_lower(s, &a);
    put_upper(s, &a);
    s->d = upper_of(d);
    s->N = (uint32_t)n;
}

/* One order further, the sides one by one. */
static __attribute__((noinline)) void advance_each(plain_session *s)
{
    differ unused = 0;
    u64 n = s->N;
    reciprocal k = of_short(n + 1), kk = of_long(n * (n + 1));
    letters l = letters_of(LOWER, s, &unused), L = letters_of(UPPER, s, &unused);
    terms a = next_terms(LOWER, &l, terms_of(LOWER, s, &unused), k, kk, &unused);
    terms b = next_terms(UPPER, &L, terms_of(UPPER, s, &unused), k, kk, &unused);
    pair d = taken(UPPER, s->d, s->d, &unused);
    s->d = upper_of(next_tail(letter_of(UPPER, s->M, s->M, &unused), d, of_short(n + 2)));
    put_lower(s, &a);
    put_upper(s, &b);
    s->N++;
}

/* From k = t + 1 on r falls. Once it is below the last place of the sums, the lower sum stays and the upper one grows
   by a last place for each k. */
void plain_exponentials(plain_session *s)
{
    const plain_scaled one = {0x80000000u, -31};
    differ unused = 0;
    plain_scaled t = s->lower.t, T = s->upper.t;
    letter l = letter_of(LOWER, t, t, &unused), L = letter_of(UPPER, T, T, &unused);
    pair r = taken(LOWER, t, t, &unused), q = taken(UPPER, T, T, &unused);
    pair a = plus(LOWER, taken(LOWER, one, one, &unused), r, &unused);
    pair b = plus(UPPER, taken(UPPER, one, one, &unused), q, &unused);
    u64 k = 2, falls = ((u64)T.m >> (T.e > -63 ? -T.e : 63)) + 2;
    while (k < 256 && (k <= falls || r.e + 32 >= a.e || q.e + 32 >= b.e)) {
        r = over(LOWER, times(LOWER, l, r, &unused), of_short(k), &unused);
        q = over(UPPER, times(UPPER, L, q, &unused), of_short(k), &unused);
        a = plus(LOWER, a, r, &unused);
        b = plus(UPPER, b, q, &unused);
        k++;
    }
    s->lower.exponential = lower_of(a);
    plain_scaled B = upper_of(b);
    u64 m = (u64)B.m + (256 - k), limit = 1ull << 32;
    /* from 2^32 on a last place is twice as much */
    s->upper.exponential =
        m < limit ? (plain_scaled){(uint32_t)m, B.e} : (plain_scaled){(uint32_t)(limit / 2 + (m - limit)), B.e + 1};
    for (; k <= 256; k++)
        q = over(UPPER, times(UPPER, L, q, &unused), of_short(k), &unused);
    s->r256 = upper_of(q);
}

/* Scaled numbers as the session holds them, for begin and read. */

/* D, or U, of h × 2^(e - 31), for h of 63 or 64 bits; for U a rest that is not zero is in h's last bit. */
INLINE plain_scaled rounded(int up, u64 h, i64 e)
{
    u64 whole = up ? h + LOW : h, s = whole >> 63;
    u64 m = s ? (up ? h + 0xffffffff : h) >> 32 : whole >> 31;
    return (plain_scaled){(uint32_t)m, (int32_t)(e + (i64)s)};
}

/* D(n / d) and U(n / d) of whole numbers below 2^63, d not zero. */
INLINE void ratio(u64 n, u64 d, plain_scaled *lower, plain_scaled *upper)
{
    *lower = *upper = (plain_scaled){0, 0};
    if (n == 0)
        return;
    int shift_n = __builtin_clzll(n), shift_d = __builtin_clzll(d);
    n <<= shift_n;
    d <<= shift_d;
    u64 q = (u64)(((unsigned __int128)n << 62) / d), rest = (n << 62) - q * d;
    int shift = __builtin_clzll(q) - 1;
    u64 h = q << shift | (rest != 0);
    i64 e = shift_d - shift_n - shift - 31;
    *lower = rounded(0, h, e);
    *upper = rounded(1, h, e);
}

INLINE plain_scaled product(int up, plain_scaled a, plain_scaled b)
{
    if (a.m == 0 || b.m == 0)
        return (plain_scaled){0, 0};
    return rounded(up, (u64)a.m * b.m, (i64)a.e + b.e + 31);
}

/* D(a + b) or U(a + b), neither of them zero. */
INLINE plain_scaled added(int up, plain_scaled a, plain_scaled b)
{
    i64 gap = (i64)a.e - b.e;
    plain_scaled x = gap < 0 ? b : a, y = gap < 0 ? a : b;
    u64 h = (u64)x.m << 31, rest = (u64)y.m << 31;
    gap = gap < 0 ? -gap : gap;
    gap = gap < 63 ? gap : 63;
    return rounded(up, h + (up ? ((rest - 1) >> gap) + 1 : rest >> gap), x.e);
}

INLINE plain_scaled sum(int up, plain_scaled a, plain_scaled b)
{
    return a.m == 0 ? b : b.m == 0 ? a : added(up, a, b);
}

/* D(a / b) or U(a / b), neither of them zero. */
INLINE plain_scaled quotient(int up, plain_scaled a, plain_scaled b)
{
    u64 n = (u64)a.m << 32, q = n / b.m;
    int shift = __builtin_clzll(q) - 1;
    return rounded(up, q << shift | (n % b.m != 0), (i64)a.e - b.e - 1 - shift);
}

INLINE plain_scaled halved(plain_scaled a)
{
    return (plain_scaled){a.m, a.m == 0 ? 0 : a.e - 1};
}

INLINE plain_scaled doubled(plain_scaled a)
{
    return (plain_scaled){a.m, a.e + 1};
}

/* Whether a is at most b, neither of them zero. */
INLINE int at_most(plain_scaled a, plain_scaled b)
{
    return a.e < b.e || (a.e == b.e && a.m <= b.m);
}

static plain_answer refuse(uint32_t refusal)
{
    return (plain_answer){.refusal = refusal};
}

plain_session plain_empty(void)
{
    return (plain_session){0};
}

plain_answer plain_begin(plain_session *s, jinthuol_encounter E)
{
    uint32_t first = plain_tests(E);
    if (first)
        return refuse(first);
    u64 RR = (u64)E.R * E.R, xx = (u64)E.sx * E.sx, yy = (u64)E.sy * E.sy;
    plain_scaled zx[2], zy[2], u[2], b[2], g[2], h[2], X[2], Y[2], c[2];
    ratio(RR, 2 * yy, &u[0], &u[1]);
    ratio((u64)((i64)E.xm * E.xm), 2 * xx, &zx[0], &zx[1]);
    ratio((u64)((i64)E.ym * E.ym), 2 * yy, &zy[0], &zy[1]);
    plain_scaled T = sum(1, sum(1, zx[1], zy[1]), u[1]);
    if (!at_most(T, (plain_scaled){0x80000000u, -25}))
        return refuse(7);
    ratio(RR, 2 * xx, &b[0], &b[1]);
    ratio(xx - yy, xx, &g[0], &g[1]);
    for (int up = 0; up < 2; up++) {
        h[up] = product(up, u[up], g[up]);
        X[up] = product(up, zx[up], b[up]);
        Y[up] = product(up, zy[up], u[up]);
    }
    plain_scaled M = sum(1, sum(1, sum(1, u[1], halved(h[1])), X[1]), Y[1]);
    if (plain_refuses_23(M, LARGEST_ORDER))
        return refuse(11);
    ratio(RR, 2 * (u64)E.sx * E.sy, &c[0], &c[1]);
    *s = (plain_session){.encounter = E, .N = 1, .M = M};
    for (int up = 0; up < 2; up++) {
        plain_side *side = up ? &s->upper : &s->lower;
        side->u = u[up];
        side->h = h[up];
        side->X = X[up];
        side->Y = Y[up];
        side->t = up ? T : sum(0, sum(0, zx[0], zy[0]), u[0]);
        side->p = product(up, u[up], c[up]);
        side->c = side->v = side->y = side->sum = c[up];
    }
    plain_exponentials(s);
    s->d = halved(product(1, c[1], M));
    return (plain_answer){.N = 1};
}

plain_answer plain_add(plain_session *s, uint16_t count)
{
    if (count == 0)
        return refuse(12);
    if (s->N == 0)
        return refuse(21);
    uint32_t N = s->N + count;
    if (N > LARGEST_ORDER)
        return refuse(22);
    while (s->N < N) {
        advance_both(s, N);
        if (s->N < N)
            advance_each(s);
    }
    return (plain_answer){.N = N};
}

plain_answer plain_read(const plain_session *s)
{
    if (s->N == 0)
        return refuse(21);
    if (plain_refuses_23(s->M, s->N))
        return refuse(23);
    plain_scaled lower = quotient(0, s->lower.sum, added(1, s->upper.exponential, doubled(s->r256)));
    plain_scaled upper = quotient(1, added(1, s->upper.sum, doubled(s->d)), s->lower.exponential);
    /* U(1/10,000): an end × 10,000 is at least 1 just where the end is at least this */
    const plain_scaled threshold = {3518437209u, -45};
    uint32_t class_ = at_most(threshold, lower) ? 1 : at_most(threshold, upper) ? 2 : 0;
    return (plain_answer){0, s->N, lower, upper, class_, s->object, s->time};
}
