/* What the harness asks of each contender. */
#ifndef CONTENDER_H
#define CONTENDER_H

#include "jinthuol.h"
#include "limits.h"
#include <stdint.h>

/* A case: an encounter, and the order to which its terms are added. */
struct measured {
    const char *name;
    jinthuol_encounter E;
    uint32_t N;
};

/* The refusal's number, or 0; the order; mantissa and exponent of the lower end, then of the upper one; the class,
   0 clear, 1 alert, 2 open; the object number and the time; the count of exact terms, which only the library has: the other
   contenders do not count, and it is 0 there. So their times are those of the steps alone, and the library's over them shows
   what counting costs too. */
struct answer {
    uint32_t refusal, N;
    uint32_t ml;
    int32_t el;
    uint32_t mh;
    int32_t eh;
    uint32_t class_;
    uint32_t object, time;
    uint32_t exact_terms;
};

struct contender {
    const char *name;
    /* The calls on one session that the contender keeps. */
    void (*empty)(void);
    struct answer (*begin)(jinthuol_encounter E);
    struct answer (*begin_conjunction)(jinthuol_conjunction C);
    struct answer (*add)(uint16_t count);
    struct answer (*read)(void);
    /* Nanoseconds of a begin, of each term of an add, and of a read, over at least `least` nanoseconds. */
    double (*time_begin)(const struct measured *e, double least);
    double (*time_add)(const struct measured *e, double least);
    double (*time_read)(const struct measured *e, double least);
    /* The same of a begin and of each term over SCREENED encounters: all are begun, then all are added. */
    void (*time_screening)(const struct measured *list, double *begin, double *term);
};

/* The encounters of the screening. */
#define SCREENED 1000

extern const struct contender proved, same, plain, doubles;
#ifdef WITH_MPFR
extern const struct contender mpfr;
#endif

/* CLOCK_MONOTONIC in nanoseconds. */
double now(void);

/* Answers go here, so that no call is left out as useless. */
extern volatile uint32_t sink;

/* Nanoseconds of what is done, over at least `least` nanoseconds; it is done so many times in a row. */
#define NANOSECONDS(times, least, done)       \
    ({                                        \
        double spent = 0, all = 0;            \
        while (spent < (least)) {             \
            double start = now();             \
            for (int i = 0; i < (times); i++) \
                done;                         \
            spent += now() - start;           \
            all += (times);                   \
        }                                     \
        spent / all;                          \
    })

#endif
