/* A proved bracket of the collision probability of one short encounter.
 *
 *     jinthuol_session session = jinthuol_empty();
 *     jinthuol_encounter test_1 = {500, 5000, 100, 1000, 0};    R, sx, sy, xm, ym
 *     jinthuol_begin(&session, test_1);                         N is 1
 *     jinthuol_advice advice = jinthuol_advise(session);        66: from N = 66 on the ends are close
 *     jinthuol_add(&session, advice.order - 1);                 N is 66
 *     jinthuol_answer answer = jinthuol_read(session);          both ends, the class, object and time (0 here), exact_terms: 1
 *     jinthuol_to_decimal(false, answer.lower)                  7647 and 2: at least 7.647e-02
 *     jinthuol_to_decimal(true, answer.upper)                   7648 and 2: at most 7.648e-02
 *     jinthuol_divide(true, answer.upper, 3)                    0 and 3503497447 x 2^-37: a third of the upper end, rounded up
 *     jinthuol_read_doubles(session)                            0, JINTHUOL_BOTH and both ends as doubles: about 0.0764738853 and 0.0764738968
 *     jinthuol_read_plot_record(session)                        0, JINTHUOL_BOTH and object 0, both ends, and the double upper - lower: about 1.15e-08
 *     jinthuol_week week = jinthuol_empty_week();               seven days of eight places, all empty
 *     jinthuol_entered entered = jinthuol_enter(week, 2, session);   0, and the week with the ends of a read in the first place of day 2
 *     week = entered.week;                                      where entered.refusal is not 0, the week as it was: that encounter is not in the figure
 *     jinthuol_week_ends(week)                                  the greatest lower end, and the upper ends added: of one bracket they are its own
 *     jinthuol_conjunction conjunction = {test_1, 25544, 1440}; object 25544, at minute 1440
 *     jinthuol_begin_conjunction(&session, conjunction);        N is 1; reads answer 25544 and 1440
 *
 * The functions are those of libjinthuol.a; `tools/build jinthuol` writes it to target/staticlib. example.c beside this file prints their answers.
 * README.md has the inputs in plain words, docs/TRUST.md what is proved of the functions and what is not.
 *
 * Refusals. Each test is made in this order, and the first that refuses gives its number; 0 is accepted.
 *
 *      8  script file longer than 65,536 bytes             (jinthuol_run)
 *      1  no kind byte, or kind is not 1, 2, 3 or 4        (in listings)
 *      2  body shorter than its kind needs                 (in listings)
 *      3  R is 0 or above 10,000,000                       (both begins)
 *      4  sx or sy is 0 or above 10,000,000                (both begins)
 *      5  sy above sx                                      (both begins)
 *      6  a miss outside -10,000,000 to 10,000,000         (both begins)
 *      7  upper t above 64                                 (both begins)
 *     11  begin: 2M above 1,026                            (both begins)
 *      9  kind 4: object number is 0                       (begin_conjunction)
 *     12  add: count is 0                                  (add)
 *     13  enter: day number above 6                        (enter)
 *     21  add or read with no encounter begun              (add, read, advise, read_doubles, read_plot_record, enter)
 *     22  add: N + count above 1,024                       (add)
 *     23  read: 2M above N + 2                             (read, read_doubles, read_plot_record, enter)
 *     24  enter: a ninth bracket for a day                 (enter)
 *     10  divide: divisor 0, number not in the scaled form, or e below -1,000,000,000   (divide)
 *
 * 7 in plain words: (xm/sx)^2 + (ym/sy)^2 + (R/sy)^2, which is 2t, is above 128; t is rounded up first. 11: the radius and the miss are both several standard
 * deviations (README.md, 'The five inputs'); a read would be refused as 23 at every order up to 1,024, the largest. 9: `kind 4` is the record of a script that asks
 * for begin_conjunction. 12: where no term is wanted, make no add. 13: the days of a week are 0 to 6. 23: too few terms are added for the bound of those left out; a
 * read needs N of at least 2M - 2. 24: all eight places of the day are taken, and no call empties one. 10: the scaled form is that of jinthuol_scaled below. Every end
 * and every quotient has it. No end of a read has so low an e; a quotient's e is at most 32 below its number's. README.md has examples.
 *
 * What a caller sees to. No pointer may be null, also where its length is 0. C converts a number to the type of its parameter or field without a word:
 * test first that it fits.
 *
 * Threads. The library has no state of its own and starts no thread: all that is kept is in the sessions and the weeks, which are the caller's. Calls on different
 * sessions may run at the same time; while a begin or an add runs, nobody else may read or write its session. A week goes into a call and comes out of it by value.
 *
 * Versions. This header and libjinthuol.a belong together, as one version of the repository has them: the structs are laid out as both say, and nothing
 * else checks that. A program that may meet another library tests jinthuol_version() == JINTHUOL_VERSION first. */
#ifndef JINTHUOL_H
#define JINTHUOL_H

#include <stdbool.h>
#include <stddef.h>
#include <stdint.h>

#ifdef __cplusplus
extern "C" {
#endif

/* One more with each change of a struct or a function of this header, or of what a function answers. */
#define JINTHUOL_VERSION 11

/* The five inputs, in whole centimetres: combined radius R, larger standard deviation sx, smaller sy, mean miss xm and ym, along the principal axes of
 * the covariance in the encounter plane. */
typedef struct {
    uint32_t R, sx, sy;
    int32_t xm, ym;
} jinthuol_encounter;

/* An encounter, its object number, from 1 on, and its time of closest approach, in minutes from the epoch that the site chooses. The library keeps the two and
 * answers them with each read; it computes nothing from them. */
typedef struct {
    jinthuol_encounter encounter;
    uint32_t object, time;
} jinthuol_conjunction;

/* m x 2^e, with a power of two: m from 2^31 to 2^32 - 1, or zero as m = 0 and e = 0. As a double: ldexp(m, e), exact where e is from -1074 to 992. */
typedef struct {
    uint32_t m;
    int32_t e;
} jinthuol_scaled;

/* d.ddd x 10^-power, where digits is dddd: four significant digits, 1000 to 9999, or 0 (jinthuol_to_decimal says where). power is from 0 to 43. In print
 * "%u.%03ue-%02u" of digits / 1000, digits % 1000 and power, as a listing has it. */
typedef struct {
    uint32_t digits;
    uint32_t power;
} jinthuol_decimal;

/* All that is kept of one encounter between calls. Only the functions below write it: each asks that its session came from jinthuol_empty and
 * then from these calls alone, and that nobody else writes it during the call. It is plain data: a copy of it is a session too. */
typedef struct {
    uint32_t words[60];
} jinthuol_session;

/* The class, by both ends and 1/10,000. Clear: the upper end is below it. Alert: the lower end is at least that. Open: neither, so this read does not
 * tell on which side the probability is; a read with some terms more may (README.md, 'A line of a listing'). */
enum { JINTHUOL_CLEAR = 0, JINTHUOL_ALERT = 1, JINTHUOL_OPEN = 2 };

/* The refusal's number, or 0; then the order N, both ends, the class, the object number, the time of closest approach and the count of exact terms. A refusal has
 * zero in every other field; an accepted begin or add has zero in all but N. So the fields after N mean something only in the answer of a read whose refusal is 0.
 * There the object number and the time are those of jinthuol_begin_conjunction, and both 0 where the encounter was begun by jinthuol_begin. exact_terms is how many
 * of the first terms are exact, at least 0 and at most N: on the way to them nothing was rounded off, on either side. It tells where rounding starts, not how much
 * is lost by it: that is in the ends, which hold at every count, also at 0. */
typedef struct {
    uint32_t refusal;
    uint32_t N;
    jinthuol_scaled lower;
    jinthuol_scaled upper;
    uint32_t class_;
    uint32_t object;
    uint32_t time;
    uint32_t exact_terms;
} jinthuol_answer;

/* The refusal's number, or 0; then the advised order, from 13 to 708, or 0 where there is none. A refusal has 0 there too. */
typedef struct {
    uint32_t refusal;
    uint32_t order;
} jinthuol_advice;

/* The refusal's number, or 0; then the quotient, which is zero where it is refused. */
typedef struct {
    uint32_t refusal;
    jinthuol_scaled quotient;
} jinthuol_divided;

/* How many ends an answer in doubles has: none, since it is refused; the lower end alone, since the upper end is 1 or more; or both. */
enum { JINTHUOL_REFUSED = 0, JINTHUOL_UNBOUNDED = 1, JINTHUOL_BOTH = 2 };

/* The refusal's number, or 0; then one of the three above, and the ends. lower is there where tag is JINTHUOL_UNBOUNDED or JINTHUOL_BOTH, upper only where it is
 * JINTHUOL_BOTH. Look at tag first, and not at refusal alone, which is 0 where it is unbounded too: an end that is not there has 0 in its field, and that 0 is no
 * end. */
typedef struct {
    uint32_t refusal;
    uint32_t tag;
    double lower;
    double upper;
} jinthuol_doubles;

/* What a plotting tool stores: the object number, both ends, and their difference, which is the double upper - lower. Store the fields and not the struct's bytes:
 * behind object there are four bytes of any content. */
typedef struct {
    uint32_t object;
    double lower;
    double upper;
    double difference;
} jinthuol_plot_record;

/* The refusal's number, or 0; then one of the three above, and the record, which is there only where tag is JINTHUOL_BOTH. Look at tag first: elsewhere every field
 * of the record has 0, and that is no record. */
typedef struct {
    uint32_t refusal;
    uint32_t tag;
    jinthuol_plot_record record;
} jinthuol_plotted;

/* A place of a week. held is 1 where it has the two ends of a read, and 0 where it is empty; then every other field is 0 too, and that 0 is no end. */
typedef struct {
    uint32_t held;
    jinthuol_scaled lower;
    jinthuol_scaled upper;
} jinthuol_bracket;

/* A week: seven days, 0 to 6, of eight places. The places of a day are filled from the first on. Anyone may look at them, but only the functions below write them:
 * each asks that its week came from jinthuol_empty_week and then from jinthuol_enter alone. It is plain data: a copy of it is a week too. With zero in every field it
 * is the empty week. */
typedef struct {
    jinthuol_bracket days[7][8];
} jinthuol_week;

/* The refusal's number, or 0; then the week, which is as it was where it is refused. */
typedef struct {
    uint32_t refusal;
    jinthuol_week week;
} jinthuol_entered;

/* The lower and the upper end of a week. */
typedef struct {
    jinthuol_scaled lower;
    jinthuol_scaled upper;
} jinthuol_ends;

/* The bytes of the buffer that are used, and whether they are the whole listing. */
typedef struct {
    size_t used;
    bool ended;
} jinthuol_listing;

/* The library's version: JINTHUOL_VERSION of the header that belongs to it. */
uint32_t jinthuol_version(void);

/* A session with no encounter begun. */
jinthuol_session jinthuol_empty(void);

/* Begins an encounter at order N = 1, with no object: reads answer 0 as the object number and the time. Refused as 3 to 7 or 11, and then the session is as
 * it was, with the earlier object number and time. */
jinthuol_answer jinthuol_begin(jinthuol_session *session, jinthuol_encounter encounter);

/* Begins an encounter of an object at order N = 1: reads answer the object number and the time too, until the next begin that is accepted. Refused as 3 to 7, 11
 * or 9, the last where the object number is 0, and then the session is as it was, with the earlier object number and time. Any time is accepted. */
jinthuol_answer jinthuol_begin_conjunction(jinthuol_session *session, jinthuol_conjunction conjunction);

/* Adds count terms, 1 or more. Refused as 12, 21 or 22, as 12 where count is 0; a refused add leaves the session as it was. */
jinthuol_answer jinthuol_add(jinthuol_session *session, uint16_t count);

/* The bracket at the session's order. Refused as 21 or 23. The upper end has the bound of all terms not yet added in it, so at the first orders that are
 * read it may be far off, and above 1; jinthuol_advise has how many terms are enough. Where the probability is next to 1, rounding may leave it above 1. */
jinthuol_answer jinthuol_read(jinthuol_session session);

/* An order N that is enough for the session's encounter: a read at it, or at any later one, is accepted, and its ends are close, since the bound of the terms
 * left out is at most 2^-31 of the sum there. It is the same at every order of the encounter: after a begin, add order - 1. After a refused begin it is that of
 * the encounter before. No order is advised where M is above 256. Refused as 21. It changes nothing. */
jinthuol_advice jinthuol_advise(jinthuol_session session);

/* A number in decimal: as a lower end, or where up is true as an upper one. Take false for `lower` and true for `upper`. A lower end in decimal is never above
 * the end, an upper one below 1 never below it, and below 1 both are off by at most two in the last digit; an end of 1 or more is 1.000e-00, in both directions.
 * So an upper end that prints as 1.000e-00 may be far above 1: look at the end itself. It takes any m and e, also those that no read gives: zero is 0.000e-00,
 * and another number too small for the table of powers of ten (below about 10^-43) is 0.000e-00 as a lower end and 1.000e-43 as an upper one. */
jinthuol_decimal jinthuol_to_decimal(bool up, jinthuol_scaled number);

/* A number divided by a whole number. The quotient is a scaled number: the greatest not above the exact quotient, or where up is true the least not below it. So
 * take false for a `lower` and true for an `upper`, and the divided probability lies between. It takes any m and e: refused as 10 where divisor is 0, where the number
 * is not in the scaled form (m above 0 and below 2^31, or m = 0 with an e other than 0), or where e is below -1,000,000,000. */
jinthuol_divided jinthuol_divide(bool up, jinthuol_scaled number, uint32_t divisor);

/* The ends of a read as doubles, for a host that reads these: both ends, or the lower end alone where the upper end is 1 or more. Each double equals its end exactly.
 * Refused as 21 or 23, as a read is, and then no double is there. It changes nothing. */
jinthuol_doubles jinthuol_read_doubles(jinthuol_session session);

/* The record of a read for a plotting tool: the object number, which is 0 where the encounter was begun by jinthuol_begin, both ends as doubles, and their difference,
 * one subtraction of doubles, rounded to the nearest, a tie to the even one, where the program has not changed the rounding mode (the ends do not depend on it). There
 * is no record where the upper end is 1 or more. Refused as 21 or 23, as a read is. It changes nothing. */
jinthuol_plotted jinthuol_read_plot_record(jinthuol_session session);

/* A week with every place empty. */
jinthuol_week jinthuol_empty_week(void);

/* Makes a read of the session and puts its two ends into the next empty place of the day, 0 to 6. Refused as 13, 21, 23 or 24: as 13 before the tests of the read,
 * where day is above 6, and as 24 after them, where the day has eight brackets already. The answer has the week after it; any refusal, the read's own too, leaves it
 * as it was. The session is not changed. An encounter that is entered twice counts twice in the week's upper end. */
jinthuol_entered jinthuol_enter(jinthuol_week week, uint32_t day, jinthuol_session session);

/* One figure for the week: lower is the greatest lower end held, and upper is the upper ends added in the order of days and places, each sum rounded up to a scaled
 * number. The chance of at least one collision in the encounters that are held lies between, independent or not. An upper end of 1 or more says nothing. An empty week
 * has zero for both. An encounter whose entry was refused is not in the figure. */
jinthuol_ends jinthuol_week_ends(jinthuol_week week);

/* The listing of a script of records, on a session of its own; `0 refused 8` where the script has more than 65,536 bytes.
 * A line is written only while 150 bytes of the buffer are left; where fewer are left before the listing's end, it is cut between two lines
 * and `ended` is false. 150 bytes for each byte of the script are enough: a line is given 150 bytes, and no listing has more lines than its
 * script has bytes. The bytes past those used are as they were. Script and buffer may not overlap. */
jinthuol_listing jinthuol_run(const uint8_t *script, size_t script_length, uint8_t *out, size_t out_length);

#ifdef __cplusplus
}
#endif

#endif
