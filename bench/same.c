/* begin and add of crates/encounter in the same shape; the functions of wide.rt and sides.rt have their names. What an
   operation lost (request #105) is not formed here. */
#include "same.h"
#include <stdbool.h>

typedef plain_scaled scaled;

/* src/arithmetic/wide.rt */

typedef struct {
    uint64_t m;
    int64_t e;
} wide;

static wide widen(scaled a)
{
    return (wide){a.m, a.e};
}

static scaled narrowed(wide a)
{
    return (scaled){(uint32_t)a.m, (int32_t)a.e};
}

static wide fit(bool up, uint64_t a, int64_t e)
{
    uint64_t c = a >> 32;
    return (wide){(up ? a + c : a) >> c, e + (int64_t)c};
}

static uint64_t upward(bool up, uint64_t n, uint64_t k)
{
    return up ? n + k : n;
}

static wide product(bool up, wide a, wide b)
{
    uint64_t h = a.m * b.m;
    if (h == 0)
        return (wide){0, 0};
    return fit(up, upward(up, h, 0x7fffffff) >> 31, a.e + b.e + 31);
}

static uint64_t shifted(bool up, uint64_t y, uint64_t g)
{
    uint64_t s = g < 63 ? g : 63;
    return up ? ((y - 1) >> s) + 1 : y >> s;
}

static wide aligned(bool up, wide a, wide b, uint64_t g)
{
    return fit(up, a.m + shifted(up, b.m, g), a.e);
}

static wide sum(bool up, wide a, wide b)
{
    if (b.m == 0)
        return a;
    if (a.m == 0)
        return b;
    if (b.e <= a.e)
        return aligned(up, a, b, (uint64_t)(a.e - b.e));
    return aligned(up, b, a, (uint64_t)(b.e - a.e));
}

static uint64_t bits_of(uint64_t k)
{
    return 64 - (uint64_t)__builtin_clzll(k);
}

static wide over(bool up, wide a, uint64_t k)
{
    if (a.m == 0)
        return a;
    uint64_t bits = bits_of(k);
    return fit(up, upward(up, a.m << bits, k - 1) / k, a.e - (int64_t)bits);
}

typedef struct {
    uint64_t bits, high, low;
} reciprocal;

static reciprocal reciprocal_of(uint64_t k)
{
    uint64_t bits = bits_of(k), n = 0x80000000ull << bits;
    return (reciprocal){bits, n / k, ((n % k << 32) + (k - 1)) / k};
}

static wide over_by(bool up, wide a, reciprocal by)
{
    if (a.m == 0)
        return a;
    uint64_t h = a.m * by.high + (a.m * by.low >> 32);
    return fit(up, upward(up, h, 0x7fffffff) >> 31, a.e - (int64_t)by.bits);
}

static wide halved(wide a)
{
    return a.m == 0 ? a : (wide){a.m, a.e - 1};
}

/* src/steps/sides.rt */

typedef struct {
    wide lower, upper;
} pair;

static pair pair_of(scaled lower, scaled upper)
{
    return (pair){widen(lower), widen(upper)};
}

static pair products(pair a, pair b)
{
    return (pair){product(false, a.lower, b.lower), product(true, a.upper, b.upper)};
}

static pair sums(pair a, pair b)
{
    return (pair){sum(false, a.lower, b.lower), sum(true, a.upper, b.upper)};
}

static pair overs(pair a, uint64_t k)
{
    return (pair){over(false, a.lower, k), over(true, a.upper, k)};
}

static pair overs_by(pair a, reciprocal by)
{
    return (pair){over_by(false, a.lower, by), over_by(true, a.upper, by)};
}

static pair halves(pair a)
{
    return (pair){halved(a.lower), halved(a.upper)};
}

/* src/steps/terms.rt and src/steps/progress.rt */

plain_answer same_add(plain_session *s, uint16_t count)
{
    if (count == 0)
        return (plain_answer){.refusal = 12};
    if (s->N == 0)
        return (plain_answer){.refusal = 21};
    uint32_t N = s->N + count;
    if (LARGEST_ORDER < N)
        return (plain_answer){.refusal = 22};
    plain_side *a = &s->lower, *b = &s->upper;
    pair u = pair_of(a->u, b->u), h = pair_of(a->h, b->h), X = pair_of(a->X, b->X), Y = pair_of(a->Y, b->Y);
    pair c = pair_of(a->c, b->c), p = pair_of(a->p, b->p), v = pair_of(a->v, b->v), y = pair_of(a->y, b->y);
    pair total = pair_of(a->sum, b->sum);
    wide M = widen(s->M), d = widen(s->d);
    for (uint64_t n = s->N - 1; n < N - 1; n++) {
        pair hv = products(h, v), hy = products(h, y);
        reciprocal by = reciprocal_of(n + 2);
        pair all = sums(sums(sums(p, halves(hv)), products(X, y)), products(Y, c));
        c = overs(all, (n + 1) * (n + 2));
        p = products(u, sums(c, overs_by(p, by)));
        v = sums(c, overs_by(hv, by));
        y = sums(v, overs_by(hy, by));
        total = sums(total, c);
        d = over(true, product(true, d, M), n + 3);
    }
    a->c = narrowed(c.lower), b->c = narrowed(c.upper);
    a->p = narrowed(p.lower), b->p = narrowed(p.upper);
    a->v = narrowed(v.lower), b->v = narrowed(v.upper);
    a->y = narrowed(y.lower), b->y = narrowed(y.upper);
    a->sum = narrowed(total.lower), b->sum = narrowed(total.upper);
    s->d = narrowed(d);
    s->N = N;
    return (plain_answer){.N = N};
}

/* src/arithmetic/rounding.rt, src/arithmetic/scaled.rt and src/steps/letters.rt */

static wide ratio(bool up, uint64_t n, uint64_t d)
{
    if (n == 0)
        return (wide){0, 0};
    int s = 64 - __builtin_clzll(d), t = __builtin_clzll(n);
    uint64_t k = d << (48 - s);
    if (k <= n << t >> 16)
        t--;
    uint64_t x = n << t, rest = (x % k) << 16, q = (x / k << 16) + rest / k;
    if (up && rest % k != 0)
        q++;
    return fit(up, q, 32 - (s + t));
}

static uint64_t square(int64_t x)
{
    return (uint64_t)(x * x);
}

typedef struct {
    wide u, h, X, Y, t;
} letters;

static letters letters_of(bool up, jinthuol_encounter E)
{
    uint64_t RR = square(E.R), xx = square(E.sx), yy = square(E.sy);
    wide u = ratio(up, RR, 2 * yy), b = ratio(up, RR, 2 * xx);
    wide zx = ratio(up, square(E.xm), 2 * xx), zy = ratio(up, square(E.ym), 2 * yy);
    wide h = product(up, u, ratio(up, xx - yy, xx));
    return (letters){u, h, product(up, zx, b), product(up, zy, u), sum(up, sum(up, zx, zy), u)};
}

/* src/calls.rt, src/calls/opening.rt and src/steps/powers.rt */

static void put_side(plain_side *s, letters l, wide start, wide p, wide exponential)
{
    s->u = narrowed(l.u), s->h = narrowed(l.h), s->X = narrowed(l.X), s->Y = narrowed(l.Y), s->t = narrowed(l.t);
    s->exponential = narrowed(exponential);
    s->c = s->v = s->y = s->sum = narrowed(start);
    s->p = narrowed(p);
}

plain_answer same_begin(plain_session *s, jinthuol_encounter E)
{
    uint32_t first = plain_tests(E);
    if (first)
        return (plain_answer){.refusal = first};
    letters above = letters_of(true, E);
    /* 64 is 2^31 × 2^-25 */
    if (above.t.m != 0 && (above.t.e > -25 || (above.t.e == -25 && above.t.m > 0x80000000u)))
        return (plain_answer){.refusal = 7};
    letters below = letters_of(false, E);
    wide M = sum(true, sum(true, sum(true, above.u, halved(above.h)), above.X), above.Y);
    if (plain_refuses_23(narrowed(M), LARGEST_ORDER))
        return (plain_answer){.refusal = 11};
    uint64_t RR = square(E.R), xy = 2 * (uint64_t)E.sx * E.sy;
    wide small = ratio(false, RR, xy), large = ratio(true, RR, xy);
    wide one = {0x80000000u, -31};
    pair t = {below.t, above.t}, r = {one, one}, total = r;
    for (uint64_t k = 1; k < 256; k++) {
        r = overs(products(r, t), k);
        total = sums(total, r);
    }
    pair last = overs(products(r, t), 256);
    put_side(&s->lower, below, small, product(false, below.u, small), total.lower);
    put_side(&s->upper, above, large, product(true, above.u, large), total.upper);
    s->encounter = E;
    s->object = s->time = 0;
    s->N = 1;
    s->r256 = narrowed(last.upper);
    s->M = narrowed(M);
    s->d = narrowed(over(true, product(true, large, M), 2));
    return (plain_answer){.N = 1};
}
