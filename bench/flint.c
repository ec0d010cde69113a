/* FLINT: the Hermite normal form with its transform, and from it a point, or a vector that refutes. */
#include "driver.h"
#include <flint/fmpz.h>
#include <flint/fmpz_mat.h>
#include <flint/fmpz_vec.h>

/* The rows' matrix, a congruence with a column of its own, transposed. */
static void enter(fmpz_mat_t t, const problem *p, size_t width)
{
    size_t m = p->ma + p->mb, own = p->n;
    fmpz_mat_init(t, (slong)width, (slong)m);
    for (size_t i = 0; i < m; i++) {
        const int64_t *row = row_of(p, i);
        for (size_t j = 0; j < p->n; j++)
            fmpz_set_si(fmpz_mat_entry(t, j, i), row[j]);
        if (row[p->n + 1] != 0)
            fmpz_set_si(fmpz_mat_entry(t, own++, i), row[p->n + 1]);
    }
}

static size_t width_of(const problem *p)
{
    size_t width = p->n;
    for (size_t i = 0; i < p->ma + p->mb; i++)
        width += row_of(p, i)[p->n + 1] != 0;
    return width;
}

/* How far the rows could be met: the pivots so far, the row of each, and, if it refutes, the last row and whether it has a pivot. */
typedef struct {
    size_t done, rows[12], last;
    int has_pivot;
} progress;

/* Row by row of the problem: a pivot fixes its coordinate, a row without one must hold already. */
static int substitute(const fmpz_mat_t h, const problem *p, size_t width, fmpz *z, progress *made)
{
    fmpz_t rest;
    int answer = SOLVED;
    fmpz_init(rest);
    made->done = 0;
    for (size_t i = 0; i < p->ma + p->mb && answer == SOLVED; i++) {
        size_t done = made->done;
        made->last = i;
        made->has_pivot = done < width && !fmpz_is_zero(fmpz_mat_entry(h, done, i));
        fmpz_set_si(rest, row_of(p, i)[p->n]);
        for (size_t r = 0; r < done; r++)
            fmpz_submul(rest, z + r, fmpz_mat_entry(h, r, i));
        if (!made->has_pivot)
            answer = fmpz_is_zero(rest) ? SOLVED : REFUTED;
        else if (!fmpz_divisible(rest, fmpz_mat_entry(h, done, i)))
            answer = REFUTED;
        else {
            fmpz_divexact(z + done, rest, fmpz_mat_entry(h, done, i));
            made->rows[made->done++] = i;
        }
    }
    fmpz_clear(rest);
    return answer;
}

/* The vector of the row that refutes, back over the pivots: numerators v and denominator q. */
static void refute(const fmpz_mat_t h, const problem *p, const progress *made, fmpz *v, fmpz_t q)
{
    size_t m = p->ma + p->mb;
    fmpz_t s, g, f;
    fmpz_init(s);
    fmpz_init(g);
    fmpz_init(f);
    fmpz_one(v + made->last);
    if (made->has_pivot)
        fmpz_abs(q, fmpz_mat_entry(h, made->done, made->last));
    else
        fmpz_one(q);
    for (size_t k = made->done; k-- > 0;) {
        const fmpz *e = fmpz_mat_entry(h, k, made->rows[k]);
        fmpz_zero(s);
        for (size_t i = 0; i <= made->last; i++)
            fmpz_addmul(s, v + i, fmpz_mat_entry(h, k, i));
        fmpz_gcd(g, s, e);
        fmpz_divexact(f, e, g);
        _fmpz_vec_scalar_mul_fmpz(v, v, (slong)m, f);
        fmpz_mul(q, q, f);
        fmpz_divexact(s, s, g);
        fmpz_neg(v + made->rows[k], s);
    }
    if (!made->has_pivot) {
        fmpz_zero(s);
        for (size_t i = 0; i < m; i++) {
            fmpz_set_si(g, row_of(p, i)[p->n]);
            fmpz_addmul(s, v + i, g);
        }
        for (fmpz_set_ui(q, 2); fmpz_divisible(s, q); fmpz_add_ui(q, q, 1))
            ;
    }
    fmpz_clear(s);
    fmpz_clear(g);
    fmpz_clear(f);
}

static int decide(size_t k)
{
    const problem *p = &problems[k];
    size_t width = width_of(p);
    fmpz_mat_t t, h, u;
    fmpz *z = _fmpz_vec_init((slong)width), *x = _fmpz_vec_init((slong)p->n), *v = _fmpz_vec_init(12);
    fmpz_t q;
    progress made;
    int answer;
    fmpz_init(q);
    enter(t, p, width);
    fmpz_mat_init(h, (slong)width, (slong)(p->ma + p->mb));
    fmpz_mat_init(u, (slong)width, (slong)width);
    fmpz_mat_hnf_transform(h, u, t);
    answer = substitute(h, p, width, z, &made);
    if (answer == SOLVED)
        for (size_t j = 0; j < p->n; j++)
            for (size_t r = 0; r < width; r++)
                fmpz_addmul(x + j, z + r, fmpz_mat_entry(u, r, j));
    else
        refute(h, p, &made, v, q);
    fmpz_mat_clear(t);
    fmpz_mat_clear(h);
    fmpz_mat_clear(u);
    _fmpz_vec_clear(z, (slong)width);
    _fmpz_vec_clear(x, (slong)p->n);
    _fmpz_vec_clear(v, 12);
    fmpz_clear(q);
    return answer;
}

int main(void)
{
    for (size_t f = 0; f < 2; f++) {
        make_problems(&families[f]);
        measure("flint", families[f].name, decide, 20);
    }
    return 0;
}
