/* Makes calls on eight sessions and a week, and prints every word of the answer of each entry. Reads lines of nine numbers: a kind, a session from 0 to 7, then R, sx, sy,
 * xm, ym, the object number and the time. Kinds 1, 2 and 4 are those of records; an add has its count in place of R. Kind 0 stands for an empty session in place of the one
 * before, kind 5 for an empty week and eight empty sessions, and kind 6 for an entry, with the day in place of R. After an entry it prints the refusal's number, the 280
 * words of the week and the 4 of its ends, eight hexadecimal digits each; the week of the answer is the next one's. Exits with 1 where an entry changes the session or the
 * week that it is given, where an answer is another when the call is made again, or where the empty week has a word other than 0. tests/week.py runs it. With other structs
 * than are due it does not compile. */
#include <inttypes.h>
#include <stddef.h>
#include <stdio.h>
#include <string.h>

#include "jinthuol.h"

typedef char bracket_has_5_words[sizeof(jinthuol_bracket) == 20 && offsetof(jinthuol_bracket, upper) == 12 ? 1 : -1];
typedef char week_has_280_words[sizeof(jinthuol_week) == 1120 ? 1 : -1];
typedef char entered_has_281_words[sizeof(jinthuol_entered) == 1124 && offsetof(jinthuol_entered, week) == 4 ? 1 : -1];
typedef char ends_have_4_words[sizeof(jinthuol_ends) == 16 && offsetof(jinthuol_ends, upper) == 8 ? 1 : -1];

enum { SESSIONS = 8, DAYS = 7, PLACES = 8 };

static jinthuol_session sessions[SESSIONS];
static jinthuol_week week;

static void print_scaled(jinthuol_scaled x)
{
    printf("%08" PRIx32 "%08" PRIx32, x.m, (uint32_t)x.e);
}

/* Whether the week and the sessions are empty after it. */
static int start(void)
{
    jinthuol_week zero;
    memset(&zero, 0, sizeof zero);
    for (int i = 0; i < SESSIONS; i++) {
        sessions[i] = jinthuol_empty();
    }
    week = jinthuol_empty_week();
    return memcmp(&week, &zero, sizeof zero) == 0;
}

/* Whether the entry changed nothing but its answer. */
static int enter(int number, uint32_t day)
{
    jinthuol_session session = sessions[number];
    jinthuol_week before = week;
    jinthuol_entered a = jinthuol_enter(week, day, session), again = jinthuol_enter(before, day, sessions[number]);
    jinthuol_ends ends = jinthuol_week_ends(a.week), ends_again = jinthuol_week_ends(again.week);
    if (memcmp(&a, &again, sizeof a) != 0 || memcmp(&ends, &ends_again, sizeof ends) != 0) {
        return 0;
    }
    if (memcmp(&week, &before, sizeof before) != 0 || memcmp(&session, &sessions[number], sizeof session) != 0) {
        return 0;
    }
    week = a.week;
    printf("%08" PRIx32, a.refusal);
    for (int i = 0; i < DAYS * PLACES; i++) {
        const jinthuol_bracket *b = &week.days[i / PLACES][i % PLACES];
        printf("%08" PRIx32, b->held);
        print_scaled(b->lower);
        print_scaled(b->upper);
    }
    print_scaled(ends.lower);
    print_scaled(ends.upper);
    printf("\n");
    return 1;
}

static int call(int kind, int number, jinthuol_conjunction c)
{
    jinthuol_session *session = &sessions[number];

    switch (kind) {
    case 0:
        *session = jinthuol_empty();
        return 1;
    case 1:
        jinthuol_begin(session, c.encounter);
        return 1;
    case 2:
        jinthuol_add(session, (uint16_t)c.encounter.R);
        return 1;
    case 4:
        jinthuol_begin_conjunction(session, c);
        return 1;
    case 5:
        return start();
    case 6:
        return enter(number, c.encounter.R);
    default:
        return 0;
    }
}

int main(void)
{
    jinthuol_conjunction c;
    jinthuol_encounter *E = &c.encounter;
    int kind, number, read;

    if (!start()) {
        return 1;
    }
    while ((read = scanf("%d %d %" SCNu32 " %" SCNu32 " %" SCNu32 " %" SCNd32 " %" SCNd32 " %" SCNu32 " %" SCNu32, &kind, &number, &E->R, &E->sx, &E->sy, &E->xm, &E->ym,
                         &c.object, &c.time)) == 9) {
        if (number < 0 || number >= SESSIONS || !call(kind, number, c)) {
            return 1;
        }
    }
    return read != EOF;
}
