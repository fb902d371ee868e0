/* The harness.

       bench                 compares the contenders' answers, then times them and prints a table
       bench --names         prints the contenders' names
       bench --calls NAME    makes the calls of standard input with one contender, a line of answer for each

   Exits with 1 where an answer differs from the proved library's. */
#define _POSIX_C_SOURCE 200809L
#include "advice.h"
#include "contender.h"
#include "decimals.h"
#include "division.h"
#include "host.h"
#include "week.h"
#include <inttypes.h>
#include <math.h>
#include <stdio.h>
#include <stdlib.h>
#include <string.h>
#include <time.h>

/* Inputs in centimetres: Test 1 and Alfano 3 from document 01, "Encounters on each edge"; Chan 1 from document 000,
   Table 3, as in examples/chan-1.md; the last has t = 64 and M = 512.1, next to the limits of tests 7 and 11. */
static const struct measured CASES[] = {
    {"Test 1", {500, 5000, 100, 1000, 0}, 101},
    {"Alfano 3", {1500, 11425, 141, 15, -388}, LARGEST_ORDER},
    {"Chan 1", {500, 5000, 2500, 1000, 0}, 49},
    {"t = 64", {152, 28, 19, 224, 0}, LARGEST_ORDER},
};

static const struct contender *const CONTENDERS[] = {
    &proved,
    &same,
    &plain,
    &doubles,
#ifdef WITH_MPFR
    &mpfr,
#endif
};

enum {
    CASE_COUNT = sizeof CASES / sizeof CASES[0],
    COUNT = sizeof CONTENDERS / sizeof CONTENDERS[0],
    ROUNDS = 41,
};

/* The contenders' places, and the kinds of times. */
enum { PROVED, SAME, PLAIN, DOUBLES, MPFR };
enum { BEGIN, TERM, READ, KINDS };

/* Nanoseconds that one contender is timed for one kind in one round. */
static const double LEAST = 2e6;

volatile uint32_t sink;

double now(void)
{
    struct timespec t;
    clock_gettime(CLOCK_MONOTONIC, &t);
    return (double)t.tv_sec * 1e9 + (double)t.tv_nsec;
}

static void print_answer(const struct answer *a)
{
    printf("%" PRIu32 " %" PRIu32 " %" PRIu32 " %" PRId32 " %" PRIu32 " %" PRId32, a->refusal, a->N, a->ml, a->el, a->mh, a->eh);
    printf(" %" PRIu32 " %" PRIu32 " %" PRIu32 " %" PRIu32 "\n", a->class_, a->object, a->time, a->exact_terms);
}

/* But for the count of exact terms. */
static int equal(const struct answer *a, const struct answer *b)
{
    return a->refusal == b->refusal && a->N == b->N && a->ml == b->ml && a->el == b->el && a->mh == b->mh &&
           a->eh == b->eh && a->class_ == b->class_ && a->object == b->object && a->time == b->time;
}

/* The answer of a read at order N. */
static struct answer ends(const struct contender *c, const struct measured *e)
{
    c->empty();
    c->begin(e->E);
    c->add((uint16_t)(e->N - 1));
    return c->read();
}

/* Whether every contender's ends, order and class are those of the first. */
static int compare(const struct measured *e)
{
    struct answer due = ends(CONTENDERS[0], e);
    if (due.refusal != 0) {
        printf("%s: %s refuses the read with %" PRIu32 "\n", e->name, CONTENDERS[0]->name, due.refusal);
        return 0;
    }
    for (int i = 1; i < COUNT; i++) {
        struct answer found = ends(CONTENDERS[i], e);
        if (!equal(&due, &found)) {
            printf("%s: %s differs from %s\n", e->name, CONTENDERS[i]->name, CONTENDERS[0]->name);
            print_answer(&found);
            print_answer(&due);
            return 0;
        }
    }
    return 1;
}

/* The times of each case and, last, of the screening. */
static double times[CASE_COUNT + 1][KINDS][COUNT][ROUNDS];

static double time_of(const struct contender *c, int kind, const struct measured *e)
{
    switch (kind) {
    case BEGIN:
        return c->time_begin(e, LEAST);
    case TERM:
        return c->time_add(e, LEAST);
    default:
        return c->time_read(e, LEAST);
    }
}

/* In each round the cases take turns, and for each kind the contenders. */
static void measure(const struct measured *list)
{
    for (int round = 0; round < ROUNDS; round++) {
        for (int i = 0; i < CASE_COUNT; i++)
            for (int kind = 0; kind < KINDS; kind++)
                for (int j = 0; j < COUNT; j++)
                    times[i][kind][j][round] = time_of(CONTENDERS[j], kind, &CASES[i]);
        for (int j = 0; j < COUNT; j++)
            CONTENDERS[j]->time_screening(list, &times[CASE_COUNT][BEGIN][j][round], &times[CASE_COUNT][TERM][j][round]);
    }
}

static int order(const void *a, const void *b)
{
    double x = *(const double *)a, y = *(const double *)b;
    return (x > y) - (x < y);
}

static double median(const double *found)
{
    double sorted[ROUNDS];
    memcpy(sorted, found, sizeof sorted);
    qsort(sorted, ROUNDS, sizeof sorted[0], order);
    return sorted[ROUNDS / 2];
}

/* The median of the rounds' ratios: both times of a ratio are of one round, so that a change of the machine's speed
   between rounds does not count. */
static double ratio(const double *a, const double *b)
{
    double found[ROUNDS];
    for (int i = 0; i < ROUNDS; i++)
        found[i] = a[i] / b[i];
    return median(found);
}

/* One of the first `kinds` kinds in each line; then, but for the read, proved over each other one, and MPFR over proved. */
static void print_times(double found[KINDS][COUNT][ROUNDS], int kinds)
{
    static const char *const NAMES[KINDS] = {"begin", "term", "read"};
    printf("  %-5s", "");
    for (int i = 0; i < COUNT; i++)
        printf(" %9s", CONTENDERS[i]->name);
    printf("  /same  /plain  /doubles");
#ifdef WITH_MPFR
    printf("  mpfr/");
#endif
    printf("\n");
    for (int kind = 0; kind < kinds; kind++) {
        double(*t)[ROUNDS] = found[kind];
        printf("  %-5s", NAMES[kind]);
        for (int i = 0; i < COUNT; i++)
            printf(" %9.1f", median(t[i]));
        if (kind != READ)
            printf("  %5.2f  %6.2f  %8.2f", ratio(t[PROVED], t[SAME]), ratio(t[PROVED], t[PLAIN]), ratio(t[PROVED], t[DOUBLES]));
#ifdef WITH_MPFR
        if (kind != READ)
            printf("  %5.2f", ratio(t[MPFR], t[PROVED]));
#endif
        printf("\n");
    }
}

/* The next number of a fixed sequence (xorshift), below `limit`. */
static uint32_t drawn(uint32_t limit)
{
    static uint64_t x = 88172645463325252;
    x ^= x << 13;
    x ^= x >> 7;
    x ^= x << 17;
    return (uint32_t)((x >> 32) * limit >> 32);
}

/* Encounters of all sizes with a read that the first contender accepts, at orders from 81 to 120. */
static void draw_screening(struct measured *list)
{
    for (int i = 0; i < SCREENED;) {
        uint32_t sx = 100 + drawn(1u << (7 + drawn(14))), sy = 1 + drawn(sx), R = 1 + drawn(4 * sy);
        int32_t xm = (int32_t)drawn(16 * sx) - (int32_t)(8 * sx), ym = (int32_t)drawn(16 * sy) - (int32_t)(8 * sy);
        struct measured e = {"screening", {R, sx, sy, xm, ym}, 81 + drawn(40)};
        if (ends(CONTENDERS[PROVED], &e).refusal == 0)
            list[i++] = e;
    }
}

/* Whether the decimals of both versions are the same: of the ends of the cases, then of drawn numbers with e from -290 to 9. */
static int compare_decimals(void)
{
    for (int i = 0; i < 1000000; i++) {
        jinthuol_scaled x = {0x80000000u + drawn(0x80000000u), (int32_t)drawn(300) - 290};
        if (i < 2 * CASE_COUNT) {
            struct answer a = ends(CONTENDERS[PROVED], &CASES[i / 2]);
            x = i % 2 ? (jinthuol_scaled){a.mh, a.eh} : (jinthuol_scaled){a.ml, a.el};
        }
        for (int up = 0; up < 2; up++) {
            jinthuol_decimal found = same_decimal(up, x), due = jinthuol_to_decimal(up, x);
            if (found.digits != due.digits || found.power != due.power) {
                printf("decimals of %" PRIu32 " %" PRId32 " differ\n", x.m, x.e);
                return 0;
            }
        }
    }
    return 1;
}

/* Nanoseconds of both decimals of an answer. */
static double time_decimals(jinthuol_decimal (*decimal)(bool, jinthuol_scaled), const struct answer *a)
{
    jinthuol_scaled lower = {a->ml, a->el}, upper = {a->mh, a->eh};
    return NANOSECONDS(1024, LEAST, (sink = decimal(false, lower).digits, sink = decimal(true, upper).digits));
}

/* Both decimals of the read of each case, and how many times the read they cost. */
static void print_decimals(void)
{
    static double found[3][ROUNDS];
    printf("\nBoth decimals of a read, proved and in C with the table in memory\n  %-8s %9s %9s  /same  /read\n", "", "proved", "same");
    for (int i = 0; i < CASE_COUNT; i++) {
        struct answer a = ends(CONTENDERS[PROVED], &CASES[i]);
        for (int round = 0; round < ROUNDS; round++) {
            found[0][round] = time_decimals(jinthuol_to_decimal, &a);
            found[1][round] = time_decimals(same_decimal, &a);
            found[2][round] = CONTENDERS[PROVED]->time_read(&CASES[i], LEAST);
        }
        printf("  %-8s %9.1f %9.1f  %5.2f  %5.2f\n", CASES[i].name, median(found[0]), median(found[1]), ratio(found[0], found[1]),
               ratio(found[0], found[2]));
    }
}

/* Whether both versions advise the same orders: of the empty session, of the cases, of drawn encounters, and for each whole M up to 300 and next to it. */
static int compare_advice(const struct measured *list)
{
    for (int i = -1; i < CASE_COUNT + SCREENED + 900; i++) {
        jinthuol_session session = jinthuol_empty();
        if (i >= CASE_COUNT + SCREENED) {
            /* sx = sy and ym = 0: M is (R/sy)^2/2 x (1 + (xm/sy)^2/2); R is the whole part of what it has to be, one less and one more */
            int j = i - CASE_COUNT - SCREENED;
            double s = 100000, x = 8, M = 1 + j / 3;
            uint32_t R = (uint32_t)(s * sqrt(2 * M / (1 + x * x / 2)) + j % 3 - 1);
            jinthuol_begin(&session, (jinthuol_encounter){R, (uint32_t)s, (uint32_t)s, (int32_t)(s * x), 0});
        } else if (i >= 0) {
            jinthuol_begin(&session, (i < CASE_COUNT ? &CASES[i] : &list[i - CASE_COUNT])->E);
        }
        jinthuol_advice found = same_advice(session), due = jinthuol_advise(session);
        if (found.refusal != due.refusal || found.order != due.order) {
            printf("advice %d differs: %" PRIu32 " %" PRIu32 "\n", i, found.order, due.order);
            return 0;
        }
    }
    return 1;
}

/* The advice for each case. */
static void print_advice(void)
{
    static double found[2][ROUNDS];
    printf("\nAn advised order, proved and in C with the table in memory\n  %-8s %9s %9s  /same\n", "", "proved", "same");
    for (int i = 0; i < CASE_COUNT; i++) {
        jinthuol_session session = jinthuol_empty();
        jinthuol_begin(&session, CASES[i].E);
        for (int round = 0; round < ROUNDS; round++) {
            found[0][round] = NANOSECONDS(1024, LEAST, sink = jinthuol_advise(session).order);
            found[1][round] = NANOSECONDS(1024, LEAST, sink = same_advice(session).order);
        }
        printf("  %-8s %9.1f %9.1f  %5.2f\n", CASES[i].name, median(found[0]), median(found[1]), ratio(found[0], found[1]));
    }
}

/* Whether both versions answer the same quotient or refusal, in both directions. */
static int equal_divisions(jinthuol_scaled x, uint32_t k)
{
    for (int up = 0; up < 2; up++) {
        jinthuol_scaled found;
        uint32_t refusal = same_divide(up, x, k, &found);
        jinthuol_divided due = jinthuol_divide(up, x, k);
        if (refusal != due.refusal || found.m != due.quotient.m || found.e != due.quotient.e) {
            printf("divisions of %" PRIu32 " %" PRId32 " by %" PRIu32 " differ\n", x.m, x.e, k);
            return 0;
        }
    }
    return 1;
}

/* Whether the divisions of both versions are the same: at the limits of m and e, by each power of two, one less and one more; then of
   drawn numbers, one in eight of any m, the others of 32 bits, with any e, by divisors of all sizes. */
static int compare_divisions(void)
{
    static const uint32_t MANTISSAS[] = {0, 1, 0x7fffffff, 0x80000000, 0x80000001, 0xfffffffe, 0xffffffff};
    static const int32_t EXPONENTS[] = {INT32_MIN, -1000000001, -1000000000, -999999999, -35, -1, 0, 1, INT32_MAX - 1, INT32_MAX};
    enum { M_COUNT = sizeof MANTISSAS / sizeof MANTISSAS[0], E_COUNT = sizeof EXPONENTS / sizeof EXPONENTS[0] };
    for (int i = 0; i < M_COUNT * E_COUNT; i++)
        for (int j = 0; j < 3 * 33; j++) {
            /* 2^32 and one more are 0 and 1 here */
            uint32_t k = (uint32_t)((1ull << (j / 3)) + (uint64_t)(j % 3) - 1);
            if (!equal_divisions((jinthuol_scaled){MANTISSAS[i / E_COUNT], EXPONENTS[i % E_COUNT]}, k))
                return 0;
        }
    for (int i = 0; i < 1000000; i++) {
        uint32_t m = drawn(0xffffffff) | (i % 8 ? 0x80000000 : 0), k = drawn(0xffffffff) >> drawn(32);
        if (!equal_divisions((jinthuol_scaled){m, (int32_t)drawn(0xffffffff)}, k))
            return 0;
    }
    return 1;
}

/* Divisions of the upper end of the first case, down and up, by a small and by the largest divisor; of zero; and two that are refused, by
   the first and by the last of the tests. */
static void print_divisions(void)
{
    static double found[2][ROUNDS];
    struct answer a = ends(CONTENDERS[PROVED], &CASES[0]);
    jinthuol_scaled x = {a.mh, a.eh};
    const struct {
        const char *name;
        bool up;
        jinthuol_scaled number;
        uint32_t divisor;
    } divisions[] = {
        {"D, 3", false, x, 3},
        {"U, 3", true, x, 3},
        {"D, 2^32 - 1", false, x, 0xffffffff},
        {"U, 2^32 - 1", true, x, 0xffffffff},
        {"zero", true, {0, 0}, 3},
        {"divisor 0", true, x, 0},
        {"e too low", true, {a.mh, -1000000001}, 3},
    };
    printf("\nA division, proved and in C\n  %-11s %9s %9s  /same\n", "", "proved", "same");
    for (size_t i = 0; i < sizeof divisions / sizeof divisions[0]; i++) {
        bool up = divisions[i].up;
        jinthuol_scaled number = divisions[i].number, quotient;
        uint32_t divisor = divisions[i].divisor;
        for (int round = 0; round < ROUNDS; round++) {
            found[0][round] = NANOSECONDS(1024, LEAST, sink = jinthuol_divide(up, number, divisor).quotient.m);
            found[1][round] = NANOSECONDS(1024, LEAST, (same_divide(up, number, divisor, &quotient), sink = quotient.m));
        }
        printf("  %-11s %9.1f %9.1f  %5.2f\n", divisions[i].name, median(found[0]), median(found[1]), ratio(found[0], found[1]));
    }
}

/* Whether both versions answer the same ends as doubles and the same record. */
static int equal_doubles(jinthuol_session session)
{
    jinthuol_doubles a = by_hand_doubles(session), b = jinthuol_read_doubles(session);
    jinthuol_plotted c = by_hand_plotted(session), d = jinthuol_read_plot_record(session);
    return a.refusal == b.refusal && a.tag == b.tag && a.lower == b.lower && a.upper == b.upper && c.refusal == d.refusal && c.tag == d.tag &&
           c.record.object == d.record.object && c.record.lower == d.record.lower && c.record.upper == d.record.upper &&
           c.record.difference == d.record.difference;
}

/* Whether they are the same for the empty session, and for the cases and drawn encounters at every order up to theirs. */
static int compare_doubles(const struct measured *list)
{
    for (int i = -1; i < CASE_COUNT + SCREENED; i++) {
        jinthuol_session session = jinthuol_empty();
        const struct measured *e = i < 0 ? NULL : i < CASE_COUNT ? &CASES[i] : &list[i - CASE_COUNT];
        if (e)
            jinthuol_begin_conjunction(&session, (jinthuol_conjunction){e->E, 25544, 1440});
        for (uint32_t N = 1; N <= (e ? e->N : 1); N++) {
            if (!equal_doubles(session)) {
                printf("ends as doubles differ: %d at %" PRIu32 "\n", i, N);
                return 0;
            }
            jinthuol_add(&session, 1);
        }
    }
    return 1;
}

static volatile double double_sink;

/* The ends as doubles and the record for each case, beside the read alone, and by hand. */
static void print_doubles(void)
{
    enum { ALONE, ENDS, ENDS_BY_HAND, RECORD, RECORD_BY_HAND, WAYS };
    static double found[WAYS][ROUNDS];
    printf("\nA read, its ends as doubles and its record, proved, and both by hand with ldexp\n");
    printf("  %-8s %9s %9s %9s %9s %9s  ends/read  record/read  ends/hand  record/hand\n", "", "read", "ends", "by hand", "record", "by hand");
    for (int i = 0; i < CASE_COUNT; i++) {
        jinthuol_session session = jinthuol_empty();
        jinthuol_begin(&session, CASES[i].E);
        jinthuol_add(&session, (uint16_t)(CASES[i].N - 1));
        for (int round = 0; round < ROUNDS; round++) {
            found[ALONE][round] = NANOSECONDS(1024, LEAST, sink = jinthuol_read(session).N);
            found[ENDS][round] = NANOSECONDS(1024, LEAST, double_sink = jinthuol_read_doubles(session).lower);
            found[ENDS_BY_HAND][round] = NANOSECONDS(1024, LEAST, double_sink = by_hand_doubles(session).lower);
            found[RECORD][round] = NANOSECONDS(1024, LEAST, double_sink = jinthuol_read_plot_record(session).record.difference);
            found[RECORD_BY_HAND][round] = NANOSECONDS(1024, LEAST, double_sink = by_hand_plotted(session).record.difference);
        }
        printf("  %-8s", CASES[i].name);
        for (int way = 0; way < WAYS; way++)
            printf(" %9.1f", median(found[way]));
        printf("  %9.2f  %11.2f  %9.2f  %11.2f\n", ratio(found[ENDS], found[ALONE]), ratio(found[RECORD], found[ALONE]),
               ratio(found[ENDS], found[ENDS_BY_HAND]), ratio(found[RECORD], found[RECORD_BY_HAND]));
    }
}

/* A session of the library and the same one of plain.c. */
struct both {
    jinthuol_session proved;
    plain_session plain;
};

static struct both empty_both(void)
{
    return (struct both){jinthuol_empty(), plain_empty()};
}

static struct both both_at(const struct measured *e, uint32_t N)
{
    struct both s = empty_both();
    jinthuol_begin(&s.proved, e->E);
    plain_begin(&s.plain, e->E);
    if (N > 1) {
        jinthuol_add(&s.proved, (uint16_t)(N - 1));
        plain_add(&s.plain, (uint16_t)(N - 1));
    }
    return s;
}

/* Enters a session into both weeks. Whether the refusals, every word of the weeks and both ends are the same, also where the week and the session are lent. */
static int equal_weeks(jinthuol_week *proved, jinthuol_week *plain, uint32_t day, const struct both *s)
{
    jinthuol_week lent = *plain;
    jinthuol_entered due = jinthuol_enter(*proved, day, s->proved), found = plain_enter(*plain, day, s->plain);
    uint32_t refusal = lent_enter(&lent, day, &s->plain);
    if (memcmp(&due, &found, sizeof due) || refusal != due.refusal || memcmp(&lent, &due.week, sizeof lent))
        return 0;
    *proved = due.week;
    *plain = found.week;
    jinthuol_ends a = jinthuol_week_ends(*proved), b = plain_week_ends(*plain), c = lent_week_ends(&lent);
    return memcmp(&a, &b, sizeof a) == 0 && memcmp(&a, &c, sizeof a) == 0;
}

/* Whether both versions have the same weeks: 1,000 of them, each of entries on days from 0 to 7 until twenty were on a day that is full after them, of an empty session,
   of the cases and of drawn encounters at their orders, and of these at N = 1. */
static int compare_weeks(const struct measured *list)
{
    enum { WEEKS = 1000, DRAWN = 200 };
    static struct both sessions[1 + 2 * (CASE_COUNT + DRAWN)];
    int count = 0;
    sessions[count++] = empty_both();
    for (int i = 0; i < CASE_COUNT + DRAWN; i++) {
        const struct measured *e = i < CASE_COUNT ? &CASES[i] : &list[i - CASE_COUNT];
        sessions[count++] = both_at(e, e->N);
        sessions[count++] = both_at(e, 1);
    }
    for (int i = 0; i < WEEKS; i++) {
        jinthuol_week proved = jinthuol_empty_week(), plain = {0};
        for (int refused = 0; refused < 20;) {
            uint32_t day = drawn(8);
            const struct both *s = &sessions[drawn((uint32_t)count)];
            if (!equal_weeks(&proved, &plain, day, s)) {
                printf("weeks differ: %d, day %" PRIu32 "\n", i, day);
                return 0;
            }
            refused += day < 7 && proved.days[day][7].held;
        }
    }
    return 1;
}

/* An entry of the first case, and both ends of a week: by the library, in C by value as the library has them, and in C with week and session lent; beside the read alone. */
static void print_weeks(void)
{
    enum { PROVED_WEEK, BY_VALUE, LENT, WAYS };
    static double found[WAYS][ROUNDS];
    struct both s = both_at(&CASES[0], CASES[0].N);
    jinthuol_week full = jinthuol_empty_week(), last, empty = full;
    for (uint32_t i = 0; i < 56; i++) {
        last = full;
        full = jinthuol_enter(full, i / 8, both_at(&CASES[i % CASE_COUNT], CASES[i % CASE_COUNT].N).proved).week;
    }
    const struct {
        const char *name;
        const jinthuol_week *week;
        uint32_t day;
    } entries[] = {{"first entry", &empty, 0}, {"56th entry", &last, 6}, {"refused 24", &full, 6}, {"refused 13", &full, 7}};
    printf("\nA week, proved, in C by value, and in C with week and session lent; a read alone takes %.1f\n", CONTENDERS[PROVED]->time_read(&CASES[0], LEAST));
    printf("  %-13s %9s %9s %9s  /value  /lent\n", "", "proved", "by value", "lent");
    for (size_t i = 0; i < sizeof entries / sizeof entries[0]; i++) {
        jinthuol_week week = *entries[i].week, changed = week;
        uint32_t day = entries[i].day, place = i == 0 ? 0 : 7;
        for (int round = 0; round < ROUNDS; round++) {
            found[PROVED_WEEK][round] = NANOSECONDS(1024, LEAST, sink = jinthuol_enter(week, day, s.proved).refusal);
            found[BY_VALUE][round] = NANOSECONDS(1024, LEAST, sink = plain_enter(week, day, s.plain).refusal);
            /* the place is emptied again */
            found[LENT][round] = NANOSECONDS(1024, LEAST, (sink = lent_enter(&changed, day, &s.plain), i < 2 ? (void)(changed.days[day][place].held = 0) : (void)0));
        }
        printf("  %-13s %9.1f %9.1f %9.1f  %6.2f  %5.2f\n", entries[i].name, median(found[PROVED_WEEK]), median(found[BY_VALUE]), median(found[LENT]),
               ratio(found[PROVED_WEEK], found[BY_VALUE]), ratio(found[PROVED_WEEK], found[LENT]));
    }
    const jinthuol_week *const weeks[] = {&empty, &full};
    static const char *const NAMES[] = {"ends, 0 held", "ends, 56 held"};
    for (int i = 0; i < 2; i++) {
        jinthuol_week week = *weeks[i];
        for (int round = 0; round < ROUNDS; round++) {
            found[PROVED_WEEK][round] = NANOSECONDS(1024, LEAST, sink = jinthuol_week_ends(week).upper.m);
            found[BY_VALUE][round] = NANOSECONDS(1024, LEAST, sink = plain_week_ends(week).upper.m);
            found[LENT][round] = NANOSECONDS(1024, LEAST, sink = lent_week_ends(&week).upper.m);
        }
        printf("  %-13s %9.1f %9.1f %9.1f  %6.2f  %5.2f\n", NAMES[i], median(found[PROVED_WEEK]), median(found[BY_VALUE]), median(found[LENT]),
               ratio(found[PROVED_WEEK], found[BY_VALUE]), ratio(found[PROVED_WEEK], found[LENT]));
    }
}

/* Nanoseconds of a begin of kind 4 by the library. */
static double time_conjunction(jinthuol_encounter E)
{
    jinthuol_session session = jinthuol_empty();
    jinthuol_conjunction C = {E, 25544, 1440};
    return NANOSECONDS(16, LEAST, sink = jinthuol_begin_conjunction(&session, C).N);
}

/* Begins of both kinds by the library, and how many times the one of kind 1 the other takes. */
static void print_begins(void)
{
    static double found[2][ROUNDS];
    printf("\nA begin of kind 1 and of kind 4, proved\n  %-8s %9s %9s  4/1\n", "", "kind 1", "kind 4");
    for (int i = 0; i < CASE_COUNT; i++) {
        for (int round = 0; round < ROUNDS; round++) {
            found[0][round] = CONTENDERS[PROVED]->time_begin(&CASES[i], LEAST);
            found[1][round] = time_conjunction(CASES[i].E);
        }
        printf("  %-8s %9.1f %9.1f  %.3f\n", CASES[i].name, median(found[0]), median(found[1]), ratio(found[1], found[0]));
    }
}

/* The processor's model, as the system names it. */
static void print_processor(void)
{
    char line[512];
    FILE *f = fopen("/proc/cpuinfo", "r");
    const char *model = "unknown processor";
    while (f && fgets(line, sizeof line, f))
        if (strncmp(line, "model name", 10) == 0 && strchr(line, ':')) {
            model = strchr(line, ':') + 2;
            line[strcspn(line, "\n")] = 0;
            break;
        }
    printf("%s\n", model);
    if (f)
        fclose(f);
}

static int table(void)
{
    static struct measured list[SCREENED];
    draw_screening(list);
    for (int i = 0; i < CASE_COUNT; i++)
        if (!compare(&CASES[i]))
            return 1;
    for (int i = 0; i < SCREENED; i++)
        if (!compare(&list[i]))
            return 1;
    fill_powers();
    fill_orders();
    if (!compare_decimals() || !compare_advice(list) || !compare_divisions() || !compare_doubles(list) || !compare_weeks(list))
        return 1;
    print_processor();
    printf("Nanoseconds and ratios, medians of %d rounds. A term is both sides and the tail term.\n", ROUNDS);
    printf("/same, /plain, /doubles: proved over it. mpfr/: MPFR over proved.\n");
    printf("The ends, N and class of all contenders are equal, and so are the decimals, the advice, the divisions, the ends as doubles and the weeks of both versions.\n");
    measure(list);
    for (int i = 0; i < CASE_COUNT; i++) {
        jinthuol_encounter E = CASES[i].E;
        printf("\n%s, (%" PRIu32 ", %" PRIu32 ", %" PRIu32 ", %" PRId32 ", %" PRId32 "), N = %" PRIu32 "\n", CASES[i].name,
               E.R, E.sx, E.sy, E.xm, E.ym, CASES[i].N);
        print_times(times[i], KINDS);
    }
    printf("\nScreening: %d encounters, N from 81 to 120, each begun once and added once in a round\n", SCREENED);
    print_times(times[CASE_COUNT], READ);
    print_begins();
    print_decimals();
    print_advice();
    print_divisions();
    print_doubles();
    print_weeks();
    return 0;
}

#define FIVE "%" SCNu32 " %" SCNu32 " %" SCNu32 " %" SCNd32 " %" SCNd32

/* Lines `empty`, `begin R sx sy xm ym`, `begin_conjunction R sx sy xm ym object time`, `add count` and `read`; the answer's
   fields, or 0 for empty. */
static int calls(const struct contender *c)
{
    char line[128];
    c->empty();
    while (fgets(line, sizeof line, stdin)) {
        jinthuol_conjunction C;
        jinthuol_encounter *E = &C.encounter;
        uint16_t count;
        struct answer a = {0};
        if (sscanf(line, "begin " FIVE, &E->R, &E->sx, &E->sy, &E->xm, &E->ym) == 5)
            a = c->begin(C.encounter);
        else if (sscanf(line, "begin_conjunction " FIVE " %" SCNu32 " %" SCNu32, &E->R, &E->sx, &E->sy, &E->xm, &E->ym, &C.object,
                        &C.time) == 7)
            a = c->begin_conjunction(C);
        else if (sscanf(line, "add %" SCNu16, &count) == 1)
            a = c->add(count);
        else if (strcmp(line, "read\n") == 0)
            a = c->read();
        else if (strcmp(line, "empty\n") == 0)
            c->empty();
        else
            return 2;
        print_answer(&a);
    }
    return 0;
}

int main(int argc, char **argv)
{
    if (argc == 1)
        return table();
    if (argc == 2 && strcmp(argv[1], "--names") == 0) {
        for (int i = 0; i < COUNT; i++)
            puts(CONTENDERS[i]->name);
        return 0;
    }
    if (argc == 3 && strcmp(argv[1], "--calls") == 0)
        for (int i = 0; i < COUNT; i++)
            if (strcmp(argv[2], CONTENDERS[i]->name) == 0)
                return calls(CONTENDERS[i]);
    fprintf(stderr, "usage: bench [--names | --calls NAME]\n");
    return 2;
}
