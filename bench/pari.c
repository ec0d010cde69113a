/* PARI: the Hermite normal form with its transform (ZM_hnfall), and from it a point, or that there is none. No certificate is made. */
#include "driver.h"
#include <pari/pari.h>

static size_t width_of(const problem *p)
{
    size_t width = p->n;
    for (size_t i = 0; i < p->ma + p->mb; i++)
        width += row_of(p, i)[p->n + 1] != 0;
    return width;
}

static GEN enter(const problem *p, size_t width)
{
    size_t m = p->ma + p->mb, own = p->n;
    GEN matrix = zeromatcopy((long)m, (long)width);
    for (size_t i = 0; i < m; i++) {
        const int64_t *row = row_of(p, i);
        for (size_t j = 0; j < p->n; j++)
            gcoeff(matrix, i + 1, j + 1) = stoi(row[j]);
        if (row[p->n + 1] != 0)
            gcoeff(matrix, i + 1, ++own) = stoi(row[p->n + 1]);
    }
    return matrix;
}

static int decide(size_t k)
{
    const problem *p = &problems[k];
    pari_sp before = avma;
    size_t width = width_of(p), m = p->ma + p->mb;
    GEN transform, form = ZM_hnfall(enter(p, width), &transform, 1), constants = cgetg((long)m + 1, t_COL), z;
    int answer;
    for (size_t i = 0; i < m; i++)
        gel(constants, i + 1) = stoi(row_of(p, i)[p->n]);
    z = hnf_solve(form, constants);
    answer = z == NULL ? REFUTED : SOLVED;
    if (answer == SOLVED && lg(form) > 1) {
        /* the last columns of the transform belong to the form's columns */
        long extra = lg(transform) - lg(form);
        (void)ZM_ZC_mul(vecslice(transform, extra + 1, lg(transform) - 1), z);
    }
    avma = before;
    return answer;
}

int main(void)
{
    pari_init(64000000, 2);
    for (size_t f = 0; f < 2; f++) {
        make_problems(&families[f]);
        measure("pari", families[f].name, decide, 20);
    }
    pari_close();
    return 0;
}
