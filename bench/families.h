/* The families of problems that are measured. A generator of its own makes them, so that every run and every program has the
 * same problems. */
#ifndef FAMILIES_H
#define FAMILIES_H

#include <stddef.h>
#include <stdint.h>
#include <string.h>

#define MOST_NUMBERS 168 /* 12 rows of 14 */

typedef struct {
    size_t n, ma, mb;
    int64_t a[MOST_NUMBERS], b[MOST_NUMBERS];
} problem;

static uint64_t random_state = 1;

/* A number below k. */
static uint32_t random_below(uint32_t k)
{
    random_state = random_state * 6364136223846793005u + 1442695040888963407u;
    return (uint32_t)((random_state >> 33) % k);
}

static void split(problem *p, size_t n, size_t m, const int64_t *rows)
{
    p->n = n;
    p->ma = 1 + random_below((uint32_t)(m - 1));
    p->mb = m - p->ma;
    memcpy(p->a, rows, p->ma * (n + 2) * sizeof *rows);
    memcpy(p->b, rows + p->ma * (n + 2), p->mb * (n + 2) * sizeof *rows);
}

/* 3 rows over 3 variables: coefficients and constants in -10..10, half of the rows congruences with a modulus in 1..12. */
static void small_system(problem *p)
{
    int64_t rows[3 * 5];
    for (size_t i = 0; i < 3; i++) {
        for (size_t j = 0; j < 4; j++)
            rows[i * 5 + j] = (int64_t)random_below(21) - 10;
        rows[i * 5 + 4] = random_below(2) ? 0 : 1 + random_below(12);
    }
    split(p, 3, 3, rows);
}

/* 12 values of a loop's counter: it starts at a number known modulo 2..9, each turn adds a number, known modulo 8 in one turn of
 * four, and at the end it is tested modulo 2..9. */
static void loop_trace(problem *p)
{
    int64_t rows[12 * 14];
    memset(rows, 0, sizeof rows);
    for (size_t i = 0; i < 12; i++) {
        int64_t *row = rows + i * 14;
        row[i == 11 ? 10 : i] = 1;
        if (i > 0 && i < 11)
            row[i - 1] = -1;
        row[12] = random_below(8);
        row[13] = i == 0 || i == 11 ? 2 + random_below(8) : random_below(4) == 0 ? 8 : 0;
    }
    split(p, 12, 12, rows);
}

#endif
