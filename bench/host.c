#include "host.h"
#include <math.h>

static jinthuol_doubles ends_of(jinthuol_answer a)
{
    if (a.refusal)
        return (jinthuol_doubles){a.refusal, JINTHUOL_REFUSED, 0, 0};
    double lower = ldexp(a.lower.m, a.lower.e), upper = ldexp(a.upper.m, a.upper.e);
    if (upper >= 1)
        return (jinthuol_doubles){0, JINTHUOL_UNBOUNDED, lower, 0};
    return (jinthuol_doubles){0, JINTHUOL_BOTH, lower, upper};
}

jinthuol_doubles by_hand_doubles(jinthuol_session session)
{
    return ends_of(jinthuol_read(session));
}

jinthuol_plotted by_hand_plotted(jinthuol_session session)
{
    jinthuol_answer a = jinthuol_read(session);
    jinthuol_doubles d = ends_of(a);
    jinthuol_plotted p = {d.refusal, d.tag, {0, 0, 0, 0}};
    if (d.tag == JINTHUOL_BOTH)
        p.record = (jinthuol_plot_record){a.object, d.lower, d.upper, d.upper - d.lower};
    return p;
}
