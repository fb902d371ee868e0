#include "mpfr_steps.h"

/* What is formed on the way; made once, with the first session. */
static mpfr_t b, zx, zy, g, r, hv, hy, a, w, numerator, denominator, threshold;
static int made;

static void make(void)
{
    mpfr_inits2(32, b, zx, zy, g, r, hv, hy, a, w, threshold, (mpfr_ptr)0);
    /* whole numbers below 2^48 are exact here */
    mpfr_inits2(64, numerator, denominator, (mpfr_ptr)0);
    /* an end of 32 bits is at least 1/10,000 just where it is at least U(1/10,000) */
    mpfr_set_ui(threshold, 1, MPFR_RNDU);
    mpfr_div_ui(threshold, threshold, 10000, MPFR_RNDU);
    made = 1;
}

#define EACH_OF_SIDE(f, s) \
    f(s.u) f(s.h) f(s.X) f(s.Y) f(s.t) f(s.exponential) f(s.c) f(s.p) f(s.v) f(s.y) f(s.sum)
#define EACH(f) EACH_OF_SIDE(f, lower) EACH_OF_SIDE(f, upper) f(r256) f(M) f(d) f(lower_end) f(upper_end)

void steps_empty(steps_session *s)
{
    if (!made)
        make();
#define INIT(x) mpfr_init2(s->x, 32);
#define ZERO(x) mpfr_set_zero(s->x, 1);
    if (!s->made) {
        EACH(INIT)
        s->made = 1;
    }
    EACH(ZERO)
    s->encounter = (jinthuol_encounter){0};
    s->object = s->time = 0;
    s->N = 0;
}

void steps_copy(steps_session *to, const steps_session *from)
{
#define SET(x) mpfr_set(to->x, from->x, MPFR_RNDN);
    EACH(SET)
    to->encounter = from->encounter;
    to->object = from->object;
    to->time = from->time;
    to->N = from->N;
}

static void ratio(mpfr_t x, uint64_t n, uint64_t d, mpfr_rnd_t way)
{
    mpfr_set_uj(numerator, n, MPFR_RNDN);
    mpfr_set_uj(denominator, d, MPFR_RNDN);
    mpfr_div(x, numerator, denominator, way);
}

static uint64_t square(int64_t x)
{
    return (uint64_t)(x * x);
}

/* u, zx, zy and t. */
static void first_letters(steps_side *s, jinthuol_encounter E, mpfr_rnd_t way)
{
    ratio(s->u, square(E.R), 2 * square(E.sy), way);
    ratio(zx, square(E.xm), 2 * square(E.sx), way);
    ratio(zy, square(E.ym), 2 * square(E.sy), way);
    mpfr_add(a, zx, zy, way);
    mpfr_add(s->t, a, s->u, way);
}

/* h, X and Y, after these. */
static void other_letters(steps_side *s, jinthuol_encounter E, mpfr_rnd_t way)
{
    ratio(b, square(E.R), 2 * square(E.sx), way);
    ratio(g, square(E.sx) - square(E.sy), square(E.sx), way);
    mpfr_mul(s->h, s->u, g, way);
    mpfr_mul(s->X, zx, b, way);
    mpfr_mul(s->Y, zy, s->u, way);
}

/* M of the upper side. */
static void form_M(mpfr_t M, const steps_side *upper)
{
    mpfr_div_2ui(a, upper->h, 1, MPFR_RNDU);
    mpfr_add(a, upper->u, a, MPFR_RNDU);
    mpfr_add(a, a, upper->X, MPFR_RNDU);
    mpfr_add(M, a, upper->Y, MPFR_RNDU);
}

/* Test 23 at order N: whether 2M is above N + 2. At the largest order it is test 11. */
static int refuses_23(const mpfr_t M, uint32_t N)
{
    mpfr_mul_2ui(a, M, 1, MPFR_RNDU);
    return mpfr_cmp_ui(a, N + 2) > 0;
}

/* The rest of a side at order 1, and r(255) in r. */
static void open_side(steps_side *s, jinthuol_encounter E, mpfr_rnd_t way)
{
    ratio(s->c, square(E.R), 2 * (uint64_t)E.sx * E.sy, way);
    mpfr_mul(s->p, s->u, s->c, way);
    mpfr_set(s->v, s->c, way);
    mpfr_set(s->y, s->c, way);
    mpfr_set(s->sum, s->c, way);
    mpfr_set_ui(r, 1, way);
    mpfr_set_ui(s->exponential, 1, way);
    for (unsigned long k = 1; k <= 255; k++) {
        mpfr_mul(a, r, s->t, way);
        mpfr_div_ui(r, a, k, way);
        mpfr_add(s->exponential, s->exponential, r, way);
    }
}

/* d from the one before, where it is to be divided by k. */
static void next_tail(steps_session *s, unsigned long k)
{
    mpfr_mul(a, s->d, s->M, MPFR_RNDU);
    mpfr_div_ui(s->d, a, k, MPFR_RNDU);
}

static steps_answer refuse(uint32_t refusal)
{
    return (steps_answer){.refusal = refusal};
}

static int outside(uint32_t n)
{
    return n == 0 || n > 10000000;
}

static int far(int32_t z)
{
    return z < -10000000 || z > 10000000;
}

/* The upper letters and M are formed in a session of their own: a refused begin changes nothing. */
static steps_session tried;

steps_answer steps_begin(steps_session *s, jinthuol_encounter E)
{
    if (outside(E.R))
        return refuse(3);
    if (outside(E.sx) || outside(E.sy))
        return refuse(4);
    if (E.sy > E.sx)
        return refuse(5);
    if (far(E.xm) || far(E.ym))
        return refuse(6);
    if (!tried.made)
        steps_empty(&tried);
    first_letters(&tried.upper, E, MPFR_RNDU);
    if (mpfr_cmp_ui(tried.upper.t, 64) > 0)
        return refuse(7);
    other_letters(&tried.upper, E, MPFR_RNDU);
    form_M(tried.M, &tried.upper);
    if (refuses_23(tried.M, LARGEST_ORDER))
        return refuse(11);
#define TAKE(x) mpfr_set(s->x, tried.x, MPFR_RNDU);
    TAKE(upper.u) TAKE(upper.h) TAKE(upper.X) TAKE(upper.Y) TAKE(upper.t) TAKE(M)
    open_side(&s->upper, E, MPFR_RNDU);
    mpfr_mul(a, r, s->upper.t, MPFR_RNDU);
    mpfr_div_ui(s->r256, a, 256, MPFR_RNDU);
    mpfr_set(s->d, s->upper.c, MPFR_RNDU);
    next_tail(s, 2);
    first_letters(&s->lower, E, MPFR_RNDD);
    other_letters(&s->lower, E, MPFR_RNDD);
    open_side(&s->lower, E, MPFR_RNDD);
    s->encounter = E;
    s->object = s->time = 0;
    s->N = 1;
    return (steps_answer){.N = 1};
}

/* The side's numbers from index n - 1 to index n. */
static void next_terms(steps_side *s, unsigned long n, mpfr_rnd_t way)
{
    mpfr_mul(hv, s->h, s->v, way);
    mpfr_mul(hy, s->h, s->y, way);
    mpfr_div_2ui(a, hv, 1, way);
    mpfr_add(a, s->p, a, way);
    mpfr_mul(w, s->X, s->y, way);
    mpfr_add(a, a, w, way);
    mpfr_mul(w, s->Y, s->c, way);
    mpfr_add(a, a, w, way);
    mpfr_div_ui(s->c, a, n * (n + 1), way);
    mpfr_div_ui(a, s->p, n + 1, way);
    mpfr_add(a, s->c, a, way);
    mpfr_mul(s->p, s->u, a, way);
    mpfr_div_ui(a, hv, n + 1, way);
    mpfr_add(s->v, s->c, a, way);
    mpfr_div_ui(a, hy, n + 1, way);
    mpfr_add(s->y, s->v, a, way);
    mpfr_add(s->sum, s->sum, s->c, way);
}

steps_answer steps_add(steps_session *s, uint16_t count)
{
    if (count == 0)
        return refuse(12);
    if (s->N == 0)
        return refuse(21);
    if (s->N + count > LARGEST_ORDER)
        return refuse(22);
    for (uint32_t n = s->N; n < s->N + count; n++) {
        next_terms(&s->lower, n, MPFR_RNDD);
        next_terms(&s->upper, n, MPFR_RNDU);
        next_tail(s, n + 2);
    }
    s->N += count;
    return (steps_answer){.N = s->N};
}

steps_answer steps_read(steps_session *s)
{
    if (s->N == 0)
        return refuse(21);
    if (refuses_23(s->M, s->N))
        return refuse(23);
    mpfr_mul_2ui(a, s->r256, 1, MPFR_RNDU);
    mpfr_add(a, s->upper.exponential, a, MPFR_RNDU);
    mpfr_div(s->lower_end, s->lower.sum, a, MPFR_RNDD);
    mpfr_mul_2ui(a, s->d, 1, MPFR_RNDU);
    mpfr_add(a, s->upper.sum, a, MPFR_RNDU);
    mpfr_div(s->upper_end, a, s->lower.exponential, MPFR_RNDU);
    uint32_t class_ = mpfr_greaterequal_p(s->lower_end, threshold) ? 1 : mpfr_greaterequal_p(s->upper_end, threshold) ? 2 : 0;
    return (steps_answer){.N = s->N, .class_ = class_, .object = s->object, .time = s->time};
}

void steps_scaled(const mpfr_t x, uint32_t *m, int32_t *e)
{
    *m = 0;
    *e = 0;
    if (mpfr_zero_p(x))
        return;
    *e = (int32_t)(mpfr_get_exp(x) - 32);
    mpfr_div_2si(w, x, *e, MPFR_RNDN);
    *m = (uint32_t)mpfr_get_ui(w, MPFR_RNDN);
}
