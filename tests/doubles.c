/* Makes calls on a session and prints, after each, what the two calls for a plotting tool answer on it. Reads lines of eight numbers: 0 for an empty session in place of
 * the one before, or the kind of a record, then R, sx, sy, xm, ym, the object number and the time, or the count of an add in place of R. Prints every field of both
 * answers, of a double its bits, and then the bits of the record's upper - lower as C subtracts them. Exits with 1 where one of the two calls changes the session, or where
 * the first answers otherwise when it is made again. tests/bindings.py runs it. With other structs than are due it does not compile. */
#include <inttypes.h>
#include <stddef.h>
#include <stdio.h>
#include <string.h>

#include "jinthuol.h"

typedef char doubles_have_6_words[sizeof(jinthuol_doubles) == 24 && offsetof(jinthuol_doubles, lower) == 8 ? 1 : -1];
typedef char record_has_8_words[sizeof(jinthuol_plot_record) == 32 && offsetof(jinthuol_plot_record, lower) == 8 ? 1 : -1];
typedef char plotted_has_10_words[sizeof(jinthuol_plotted) == 40 && offsetof(jinthuol_plotted, record) == 8 ? 1 : -1];

static uint64_t bits(double x)
{
    uint64_t found;
    memcpy(&found, &x, sizeof found);
    return found;
}

static int same_doubles(jinthuol_doubles a, jinthuol_doubles b)
{
    return a.refusal == b.refusal && a.tag == b.tag && bits(a.lower) == bits(b.lower) && bits(a.upper) == bits(b.upper);
}

static void call(jinthuol_session *session, int kind, jinthuol_conjunction c)
{
    switch (kind) {
    case 0:
        *session = jinthuol_empty();
        break;
    case 1:
        jinthuol_begin(session, c.encounter);
        break;
    case 2:
        jinthuol_add(session, (uint16_t)c.encounter.R);
        break;
    case 3:
        jinthuol_read(*session);
        break;
    default:
        jinthuol_begin_conjunction(session, c);
        break;
    }
}

int main(void)
{
    jinthuol_session session = jinthuol_empty();
    jinthuol_conjunction c;
    jinthuol_encounter *E = &c.encounter;
    int kind, read;

    while ((read = scanf("%d %" SCNu32 " %" SCNu32 " %" SCNu32 " %" SCNd32 " %" SCNd32 " %" SCNu32 " %" SCNu32, &kind, &E->R, &E->sx, &E->sy, &E->xm, &E->ym, &c.object,
                         &c.time)) == 8) {
        call(&session, kind, c);
        jinthuol_session before = session;
        jinthuol_doubles a = jinthuol_read_doubles(session);
        jinthuol_plotted b = jinthuol_read_plot_record(session);
        volatile double lower = b.record.lower, upper = b.record.upper;
        if (memcmp(&session, &before, sizeof before) != 0 || !same_doubles(a, jinthuol_read_doubles(session))) {
            return 1;
        }
        printf("%" PRIu32 " %" PRIu32 " %" PRIu64 " %" PRIu64, a.refusal, a.tag, bits(a.lower), bits(a.upper));
        printf(" %" PRIu32 " %" PRIu32 " %" PRIu32 " %" PRIu64, b.refusal, b.tag, b.record.object, bits(b.record.lower));
        printf(" %" PRIu64 " %" PRIu64 " %" PRIu64 "\n", bits(b.record.upper), bits(b.record.difference), bits(upper - lower));
    }
    return read != EOF;
}
