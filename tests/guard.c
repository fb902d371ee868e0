/* Lends a session with words behind it to both begins and to add, and exits with 1 where one of these words was written: so the header's session is as large as
 * the library's, or larger. That it is not larger: tests/texts.py holds its words to those of fields.py, which tests/bindings.py compares with the library's.
 * Also where a read answers another object number or time than those of the last begin that was accepted, or another count of exact terms than the encounter's,
 * where a begin whose 2M is above 1,026 is not refused as 11, also with an object number of 0, where an add of 0 is not refused as 12, also with no encounter begun,
 * and where advise answers another order or refusal than is due, or changes the session.
 * A session, a conjunction, an answer or an advice of the header that has padding does not compile here. */
#include <string.h>

#include "jinthuol.h"

typedef char session_has_no_padding[sizeof(jinthuol_session) == sizeof(((jinthuol_session *)0)->words) ? 1 : -1];
typedef char conjunction_has_7_words[sizeof(jinthuol_conjunction) == 28 ? 1 : -1];
typedef char answer_has_10_words[sizeof(jinthuol_answer) == 40 ? 1 : -1];
typedef char advice_has_2_words[sizeof(jinthuol_advice) == 8 ? 1 : -1];

static const uint32_t behind[64] = {0x5a5a5a5a, 1, 0xffffffff, 2, 0, 3, 0x80000000, 4};

static int answers(jinthuol_session session, uint32_t object, uint32_t time)
{
    jinthuol_answer answer = jinthuol_read(session);
    return answer.N == 55 && answer.object == object && answer.time == time && answer.exact_terms == 5;
}

static int advises(const jinthuol_session *session, uint32_t refusal, uint32_t order)
{
    jinthuol_session before = *session;
    jinthuol_advice advice = jinthuol_advise(*session);
    return advice.refusal == refusal && advice.order == order && memcmp(session, &before, sizeof before) == 0;
}

int main(void)
{
    struct {
        jinthuol_session session;
        uint32_t guard[64];
    } lent;
    jinthuol_encounter encounter = {3, 4, 3, 8, 0}, too_long = {8, 1, 1, 8, 0};
    jinthuol_conjunction conjunction = {encounter, 25544, 1440};

    memcpy(lent.guard, behind, sizeof behind);
    lent.session = jinthuol_empty();
    if (jinthuol_add(&lent.session, 0).refusal != 12 || jinthuol_add(&lent.session, 1).refusal != 21 || !advises(&lent.session, 21, 0)) {
        return 1;
    }
    if (jinthuol_begin_conjunction(&lent.session, conjunction).N != 1 || jinthuol_add(&lent.session, 54).N != 55 || !answers(lent.session, 25544, 1440)) {
        return 1;
    }
    conjunction.object = 0;
    conjunction.time = 7;
    if (jinthuol_begin_conjunction(&lent.session, conjunction).refusal != 9 || !answers(lent.session, 25544, 1440)) {
        return 1;
    }
    conjunction.encounter = too_long;
    if (jinthuol_begin_conjunction(&lent.session, conjunction).refusal != 11 || !answers(lent.session, 25544, 1440)) {
        return 1;
    }
    if (jinthuol_begin(&lent.session, too_long).refusal != 11 || !answers(lent.session, 25544, 1440)) {
        return 1;
    }
    if (jinthuol_add(&lent.session, 0).refusal != 12 || !answers(lent.session, 25544, 1440)) {
        return 1;
    }
    if (!advises(&lent.session, 0, 17)) {
        return 1;
    }
    if (jinthuol_begin(&lent.session, encounter).N != 1 || jinthuol_add(&lent.session, 54).N != 55 || !answers(lent.session, 0, 0)) {
        return 1;
    }
    return memcmp(lent.guard, behind, sizeof behind) != 0;
}
