/* Brackets of encounters from standard input, one a line: R sx sy xm ym N, or R sx sy xm ym N object time. Begins the encounter, with
 * the object number and the time of closest approach where the line has them, adds N - 1 terms, reads, and prints the three answers in the words of a
 * listing; after a read both ends once more as doubles; with a refusal its condition. A read has four lines more: where rounding starts, its ends as the plotting
 * tool reads them, the record that the tool stores, and the day of the week into which it is entered, or its refusal: 0 to 6, in days of 1,440 minutes, by the time of
 * closest approach.
 * With an N of 1 no term is added, and there are two answers. An N of 0 stands for the advised order, which is printed too; where there is none, nothing is added
 * or read. The last line has both ends of the week, in the words of a listing too.
 *
 *     tools/build jinthuol
 *     gcc -std=c99 -I bindings/c bindings/c/example.c target/staticlib/libjinthuol.a -lm -o target/example
 *     echo 500 5000 100 1000 0 55 | target/example
 *     echo 500 5000 100 1000 0 55 25544 1440 | target/example
 *     echo 500 5000 100 1000 0 0 | target/example
 *     printf '500 5000 100 1000 0 55 25544 1440\n500 5000 2500 1000 0 0 27386 642\n' | target/example
 *
 * As C++: g++ -std=c++11 -I bindings/c -x c++ bindings/c/example.c -x none target/staticlib/libjinthuol.a -o target/example-cpp */
#include <inttypes.h>
#include <math.h>
#include <stdio.h>
#include <stdlib.h>
#include <string.h>

#include "jinthuol.h"

/* The condition of a refusal: those that the calls below have, from the table of jinthuol.h. */
static const char *condition(uint32_t refusal)
{
    switch (refusal) {
    case 3:
        return "R is 0 or above 10,000,000";
    case 4:
        return "sx or sy is 0 or above 10,000,000";
    case 5:
        return "sy above sx";
    case 6:
        return "a miss outside -10,000,000 to 10,000,000";
    case 7:
        return "upper t above 64";
    case 11:
        return "begin: 2M above 1,026";
    case 9:
        return "kind 4: object number is 0";
    case 13:
        return "enter: day number above 6";
    case 21:
        return "add or read with no encounter begun";
    case 22:
        return "add: N + count above 1,024";
    case 23:
        return "read: 2M above N + 2";
    case 24:
        return "enter: a ninth bracket for a day";
    default:
        return "no such refusal";
    }
}

/* The word of a class. An unknown number is not taken for clear. */
static const char *class_name(uint32_t class_)
{
    switch (class_) {
    case JINTHUOL_CLEAR:
        return "clear";
    case JINTHUOL_ALERT:
        return "alert";
    case JINTHUOL_OPEN:
        return "open";
    default:
        return "no such class";
    }
}

/* An end in decimal, as a listing has it. */
static void print_decimal(bool up, jinthuol_scaled end)
{
    jinthuol_decimal d = jinthuol_to_decimal(up, end);
    printf(" %" PRIu32 ".%03" PRIu32 "e-%02" PRIu32, d.digits / 1000, d.digits % 1000, d.power);
}

/* An end as a double: exact wherever e fits, since m has 32 bits and a double 53. Its 17 digits, rounded to the nearest, tell it from every other. */
static void print_double(jinthuol_scaled end)
{
    if (end.e < -1074 || end.e > 992) {
        printf(" none");
    } else {
        printf(" %.17g", ldexp(end.m, end.e));
    }
}

static void print_refusal(uint32_t refusal)
{
    printf("refused %" PRIu32 ": %s\n", refusal, condition(refusal));
}

/* The answer of a begin or an add: the order, and nothing in the other fields. */
static void print_order(const char *word, jinthuol_answer a)
{
    if (a.refusal != 0) {
        print_refusal(a.refusal);
    } else {
        printf("%s %" PRIu32 "\n", word, a.N);
    }
}

/* Where rounding starts, in words. */
static void print_exact_terms(jinthuol_answer a)
{
    if (a.exact_terms == a.N) {
        printf("every term so far is exact\n");
    } else {
        printf("rounding starts at term %" PRIu32 " of %" PRIu32 "\n", a.exact_terms + 1, a.N);
    }
}

static void print_read(jinthuol_answer a)
{
    if (a.refusal != 0) {
        print_refusal(a.refusal);
        return;
    }
    printf("read %" PRIu32 " %" PRIu32 " %" PRId32 " %" PRIu32 " %" PRId32, a.N, a.lower.m, a.lower.e, a.upper.m, a.upper.e);
    printf(" %s", class_name(a.class_));
    print_decimal(false, a.lower);
    print_decimal(true, a.upper);
    printf(" %" PRIu32 " %" PRIu32 " %" PRIu32, a.object, a.time, a.exact_terms);
    print_double(a.lower);
    print_double(a.upper);
    printf("\n");
    print_exact_terms(a);
}

/* The ends for the plotting tool. Where they are refused, so is the read, whose line has it. */
static void print_doubles(jinthuol_doubles a)
{
    switch (a.tag) {
    case JINTHUOL_BOTH:
        printf("as doubles: from %.17g to %.17g\n", a.lower, a.upper);
        break;
    case JINTHUOL_UNBOUNDED:
        printf("as doubles: at least %.17g, unbounded, since the upper end is 1 or more\n", a.lower);
        break;
    default:
        break;
    }
}

/* The record that it stores. */
static void print_plotted(jinthuol_plotted a)
{
    switch (a.tag) {
    case JINTHUOL_BOTH:
        printf("plot record: object %" PRIu32 ", lower %.17g, upper %.17g", a.record.object, a.record.lower, a.record.upper);
        printf(", difference %.17g\n", a.record.difference);
        break;
    case JINTHUOL_UNBOUNDED:
        printf("no plot record\n");
        break;
    default:
        break;
    }
}

/* Enters a session that is read into the week, and says on which day. */
static void enter(jinthuol_week *week, uint32_t day, jinthuol_session session)
{
    jinthuol_entered a = jinthuol_enter(*week, day, session);
    if (a.refusal != 0) {
        print_refusal(a.refusal);
    } else {
        printf("entered on day %" PRIu32 "\n", day);
    }
    *week = a.week;
}

static void print_week(jinthuol_week week)
{
    int held = 0;

    for (int day = 0; day < 7; day++) {
        for (int place = 0; place < 8; place++) {
            held += week.days[day][place].held == 1;
        }
    }
    jinthuol_ends a = jinthuol_week_ends(week);
    printf("week of %d:", held);
    printf(" %" PRIu32 " %" PRId32 " %" PRIu32 " %" PRId32, a.lower.m, a.lower.e, a.upper.m, a.upper.e);
    print_decimal(false, a.lower);
    print_decimal(true, a.upper);
    printf("\n");
}

static void print_advice(jinthuol_advice a)
{
    if (a.refusal != 0) {
        print_refusal(a.refusal);
    } else if (a.order == 0) {
        printf("no order is advised: M is above 256\n");
    } else {
        printf("advised %" PRIu32 "\n", a.order);
    }
}

/* The numbers of a line, and the least and the largest that each may be. */
enum { R, SX, SY, XM, YM, N, OBJECT, TIME, MOST };

static const long long LIMITS[MOST][2] = {
    {0, UINT32_MAX},
    {0, UINT32_MAX},
    {0, UINT32_MAX},
    {INT32_MIN, INT32_MAX},
    {INT32_MIN, INT32_MAX},
    {0, 65536},
    {0, UINT32_MAX},
    {0, UINT32_MAX},
};

/* How many numbers the line has; -1 where one is out of range, or something else stands there. */
static int numbers(const char *line, long long *found)
{
    int count = 0;

    while (count < MOST) {
        char *end;
        long long x = strtoll(line, &end, 10);
        if (end == line) {
            break;
        }
        if (x < LIMITS[count][0] || LIMITS[count][1] < x) {
            return -1;
        }
        found[count] = x;
        count++;
        line = end;
    }
    return line[strspn(line, " \t\r\n")] == '\0' ? count : -1;
}

int main(void)
{
    char line[1024];

    if (jinthuol_version() != JINTHUOL_VERSION) {
        fprintf(stderr, "the library has version %" PRIu32 ", its header %d\n", jinthuol_version(), JINTHUOL_VERSION);
        return 1;
    }
    jinthuol_week week = jinthuol_empty_week();
    while (fgets(line, sizeof line, stdin) != NULL) {
        long long x[MOST];
        int whole = strchr(line, '\n') != NULL || feof(stdin);
        int count = whole ? numbers(line, x) : -1;
        if (count == 0) {
            continue;
        }
        if (count != 6 && count != 8) {
            fprintf(stderr, "not R sx sy xm ym N, nor with object and time after it: a number is missing or out of range\n");
            return 1;
        }
        jinthuol_encounter encounter;
        encounter.R = (uint32_t)x[R];
        encounter.sx = (uint32_t)x[SX];
        encounter.sy = (uint32_t)x[SY];
        encounter.xm = (int32_t)x[XM];
        encounter.ym = (int32_t)x[YM];
        jinthuol_session session = jinthuol_empty();
        if (count == 8) {
            jinthuol_conjunction conjunction;
            conjunction.encounter = encounter;
            conjunction.object = (uint32_t)x[OBJECT];
            conjunction.time = (uint32_t)x[TIME];
            print_order("begun", jinthuol_begin_conjunction(&session, conjunction));
        } else {
            print_order("begun", jinthuol_begin(&session, encounter));
        }
        if (x[N] == 0) {
            jinthuol_advice advice = jinthuol_advise(session);
            print_advice(advice);
            if (advice.order == 0) {
                continue;
            }
            x[N] = advice.order;
        }
        /* an add of 0 would be refused */
        if (x[N] > 1) {
            print_order("added", jinthuol_add(&session, (uint16_t)(x[N] - 1)));
        }
        jinthuol_answer answer = jinthuol_read(session);
        print_read(answer);
        print_doubles(jinthuol_read_doubles(session));
        print_plotted(jinthuol_read_plot_record(session));
        if (answer.refusal == 0) {
            enter(&week, answer.time / 1440, session);
        }
    }
    if (ferror(stdin)) {
        fprintf(stderr, "not all was read\n");
        return 1;
    }
    print_week(week);
    if (fflush(stdout) != 0 || ferror(stdout)) {
        fprintf(stderr, "not all was written\n");
        return 1;
    }
    return 0;
}
