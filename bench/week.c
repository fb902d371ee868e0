#include "week.h"

enum { DAYS = 7, PLACES = 8 };

static jinthuol_scaled as_scaled(plain_scaled a)
{
    return (jinthuol_scaled){a.m, a.e};
}

uint32_t lent_enter(jinthuol_week *week, uint32_t day, const plain_session *session)
{
    if (day >= DAYS)
        return 13;
    plain_answer a = plain_read(session);
    if (a.refusal)
        return a.refusal;
    for (int place = 0; place < PLACES; place++)
        if (!week->days[day][place].held) {
            week->days[day][place] = (jinthuol_bracket){1, as_scaled(a.lower), as_scaled(a.upper)};
            return 0;
        }
    return 24;
}

/* U(a + b), b not zero. */
static jinthuol_scaled sum(jinthuol_scaled a, jinthuol_scaled b)
{
    if (a.m == 0)
        return b;
    jinthuol_scaled x = a.e < b.e ? b : a, y = a.e < b.e ? a : b;
    uint32_t gap = (uint32_t)x.e - (uint32_t)y.e;
    uint64_t m = x.m + ((uint64_t)(y.m - 1) >> (gap < 63 ? gap : 63)) + 1, c = m >> 32;
    return (jinthuol_scaled){(uint32_t)((m + c) >> c), x.e + (int32_t)c};
}

jinthuol_ends lent_week_ends(const jinthuol_week *week)
{
    jinthuol_ends ends = {{0, 0}, {0, 0}};
    for (int day = 0; day < DAYS; day++)
        /* the places of a day are filled from the first on */
        for (int place = 0; place < PLACES && week->days[day][place].held; place++) {
            const jinthuol_bracket *b = &week->days[day][place];
            if (ends.lower.m == 0 || ends.lower.e < b->lower.e || (ends.lower.e == b->lower.e && ends.lower.m < b->lower.m))
                ends.lower = b->lower;
            ends.upper = sum(ends.upper, b->upper);
        }
    return ends;
}

jinthuol_entered plain_enter(jinthuol_week week, uint32_t day, plain_session session)
{
    uint32_t refusal = lent_enter(&week, day, &session);
    return (jinthuol_entered){refusal, week};
}

jinthuol_ends plain_week_ends(jinthuol_week week)
{
    return lent_week_ends(&week);
}
