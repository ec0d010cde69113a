/* What every measured program shares: it decides the problems of each family and writes one line for each measure,
 *
 *     NAME MEASURE MICROSECONDS ANSWERS
 *
 * where the time is that of one problem, the best of five rounds, and ANSWERS has a digit for each distinct problem, so that the
 * programs can be compared: 0 no point exists, 1 one was found, 2 undecided. */
#ifndef DRIVER_H
#define DRIVER_H

#ifndef _POSIX_C_SOURCE
#define _POSIX_C_SOURCE 199309L
#endif
#include <stdio.h>
#include <stdlib.h>
#include <time.h>

#include "families.h"

#define DISTINCT 500
#define ROUNDS 5

enum { REFUTED = 0, SOLVED = 1, UNDECIDED = 2 };

typedef struct {
    const char *name;
    void (*make)(problem *);
} family;

static const family families[] = {{"small", small_system}, {"traces", loop_trace}};

static double seconds(void)
{
    struct timespec t;
    clock_gettime(CLOCK_MONOTONIC, &t);
    return (double)t.tv_sec + (double)t.tv_nsec * 1e-9;
}

static problem problems[DISTINCT];

static void make_problems(const family *f)
{
    random_state = 1;
    for (size_t k = 0; k < DISTINCT; k++)
        f->make(&problems[k]);
}

/* Measures `decide` on all problems, each `repeats` times a round. */
static inline void measure(const char *name, const char *what, int (*decide)(size_t), long repeats)
{
    static char answers[DISTINCT + 1];
    double best = 1e9;
    for (int round = 0; round < ROUNDS; round++) {
        double start = seconds(), spent;
        for (long i = 0; i < repeats; i++)
            for (size_t k = 0; k < DISTINCT; k++)
                answers[k] = (char)('0' + decide(k));
        spent = seconds() - start;
        if (spent < best)
            best = spent;
    }
    printf("%s %s %.4f %s\n", name, what, best / (double)(repeats * DISTINCT) * 1e6, answers);
}

/* All rows of a problem, A's first. */
static inline const int64_t *row_of(const problem *p, size_t i)
{
    return i < p->ma ? p->a + i * (p->n + 2) : p->b + (i - p->ma) * (p->n + 2);
}

#endif
