/* The contenders: the proved library, its own shape in C, whole numbers in plain C, doubles, and MPFR where it is there. */
#include "contender.h"
#include "doubles.h"
#include "jinthuol.h"
#include "plain.h"
#include "same.h"
#ifdef WITH_MPFR
#include "mpfr_steps.h"
#endif

/* The begun sessions that one round of adds is timed over. */
#define COPIES 16

#define COPY_STRUCT(to, from) (*(to) = *(from))
#define COUNTED(a, count) \
    (struct answer){(a).refusal, (a).N, (a).lower.m, (a).lower.e, (a).upper.m, (a).upper.e, (a).class_, (a).object, (a).time, count}
#define STRUCT_ENDS(s, a) ((void)(s), COUNTED(a, 0))

#define NAME proved
#define LABEL "proved"
#define SESSION jinthuol_session
#define ANSWER jinthuol_answer
#define EMPTY(s) (*(s) = jinthuol_empty())
#define BEGIN jinthuol_begin
#define BEGIN_CONJUNCTION jinthuol_begin_conjunction
#define ADD jinthuol_add
#define READ(s) jinthuol_read(*(s))
#define COPY COPY_STRUCT
#define ENDS(s, a) ((void)(s), COUNTED(a, (a).exact_terms))
#include "calls.h"

#define NAME same
#define LABEL "same"
#define SESSION plain_session
#define ANSWER plain_answer
#define EMPTY(s) (*(s) = plain_empty())
#define BEGIN same_begin
#define ADD same_add
#define READ plain_read
#define COPY COPY_STRUCT
#define ENDS STRUCT_ENDS
#include "calls.h"

#define NAME plain
#define LABEL "plain"
#define SESSION plain_session
#define ANSWER plain_answer
#define EMPTY(s) (*(s) = plain_empty())
#define BEGIN plain_begin
#define ADD plain_add
#define READ plain_read
#define COPY COPY_STRUCT
#define ENDS STRUCT_ENDS
#include "calls.h"

#define NAME doubles
#define LABEL "doubles"
#define SESSION plain_session
#define ANSWER plain_answer
#define EMPTY(s) (*(s) = plain_empty())
#define BEGIN doubles_begin
#define ADD doubles_add
#define READ plain_read
#define COPY COPY_STRUCT
#define ENDS STRUCT_ENDS
#include "calls.h"

#ifdef WITH_MPFR
static struct answer steps_ends(const steps_session *s, steps_answer a)
{
    struct answer all = {.refusal = a.refusal, .N = a.N, .class_ = a.class_, .object = a.object, .time = a.time};
    if (a.refusal == 0) {
        steps_scaled(s->lower_end, &all.ml, &all.el);
        steps_scaled(s->upper_end, &all.mh, &all.eh);
    }
    return all;
}

#define NAME mpfr
#define LABEL "mpfr"
#define SESSION steps_session
#define ANSWER steps_answer
#define EMPTY steps_empty
#define BEGIN steps_begin
#define ADD steps_add
#define READ steps_read
#define COPY steps_copy
#define ENDS steps_ends
#include "calls.h"
#endif
