/* One contender from its calls. Before each inclusion these are defined:
   NAME, LABEL, SESSION, ANSWER, EMPTY(s), BEGIN(s, E), ADD(s, count), READ(s), COPY(to, from), where s, to and from are
   pointers, and ENDS(s, a) for the harness's answer to the answer a of a read of s. Where BEGIN_CONJUNCTION(s, C) is not
   defined, it is made from BEGIN. */

#define JOIN_(a, b) a##_##b
#define JOIN(a, b) JOIN_(a, b)
#define OF(x) JOIN(x, NAME)

static SESSION OF(own), OF(first), OF(copies)[COPIES], OF(screened)[SCREENED];

#ifndef BEGIN_CONJUNCTION
#define BEGIN_CONJUNCTION OF(conjunction)

static ANSWER OF(conjunction)(SESSION *s, jinthuol_conjunction C)
{
    /* 9 comes after the tests of a begin, and the session is as it was */
    if (C.object == 0) {
        EMPTY(&OF(first));
        ANSWER tried = BEGIN(&OF(first), C.encounter);
        return tried.refusal ? tried : (ANSWER){.refusal = 9};
    }
    ANSWER a = BEGIN(s, C.encounter);
    if (a.refusal == 0) {
        s->object = C.object;
        s->time = C.time;
    }
    return a;
}
#endif

static void OF(empty)(void)
{
    EMPTY(&OF(own));
}

static struct answer OF(begin)(jinthuol_encounter E)
{
    ANSWER a = BEGIN(&OF(own), E);
    return (struct answer){.refusal = a.refusal, .N = a.N};
}

static struct answer OF(begin_conjunction)(jinthuol_conjunction C)
{
    ANSWER a = BEGIN_CONJUNCTION(&OF(own), C);
    return (struct answer){.refusal = a.refusal, .N = a.N};
}

static struct answer OF(add)(uint16_t count)
{
    ANSWER a = ADD(&OF(own), count);
    return (struct answer){.refusal = a.refusal, .N = a.N};
}

static struct answer OF(read)(void)
{
    ANSWER a = READ(&OF(own));
    return ENDS(&OF(own), a);
}

static double OF(time_begin)(const struct measured *e, double least)
{
    EMPTY(&OF(first));
    return NANOSECONDS(16, least, sink = BEGIN(&OF(first), e->E).N);
}

/* Only the adds are timed: each has its own copy of the begun session. */
static double OF(time_add)(const struct measured *e, double least)
{
    double spent = 0, terms = 0;
    for (int i = 0; i < COPIES; i++)
        EMPTY(&OF(copies)[i]);
    EMPTY(&OF(first));
    BEGIN(&OF(first), e->E);
    while (spent < least) {
        for (int i = 0; i < COPIES; i++)
            COPY(&OF(copies)[i], &OF(first));
        double start = now();
        for (int i = 0; i < COPIES; i++)
            sink = ADD(&OF(copies)[i], (uint16_t)(e->N - 1)).N;
        spent += now() - start;
        terms += COPIES * (e->N - 1.0);
    }
    return spent / terms;
}

static double OF(time_read)(const struct measured *e, double least)
{
    EMPTY(&OF(first));
    BEGIN(&OF(first), e->E);
    ADD(&OF(first), (uint16_t)(e->N - 1));
    return NANOSECONDS(1024, least, sink = READ(&OF(first)).N);
}

static void OF(time_screening)(const struct measured *list, double *begin, double *term)
{
    SESSION *s = OF(screened);
    double terms = 0;
    for (int i = 0; i < SCREENED; i++) {
        EMPTY(&s[i]);
        terms += list[i].N - 1.0;
    }
    double start = now();
    for (int i = 0; i < SCREENED; i++)
        sink = BEGIN(&s[i], list[i].E).N;
    double between = now();
    for (int i = 0; i < SCREENED; i++)
        sink = ADD(&s[i], (uint16_t)(list[i].N - 1)).N;
    *begin = (between - start) / SCREENED;
    *term = (now() - between) / terms;
}

const struct contender NAME = {
    LABEL,
    OF(empty),
    OF(begin),
    OF(begin_conjunction),
    OF(add),
    OF(read),
    OF(time_begin),
    OF(time_add),
    OF(time_read),
    OF(time_screening),
};

#undef NAME
#undef LABEL
#undef SESSION
#undef ANSWER
#undef EMPTY
#undef BEGIN
#undef BEGIN_CONJUNCTION
#undef ADD
#undef READ
#undef COPY
#undef ENDS
