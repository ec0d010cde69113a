/* PPL: the grid of all rows, and a point of it; if it is empty, the grid of A, projected to the shared variables: an interpolant. */
#include "driver.h"
#include <ppl.hh>

using namespace Parma_Polyhedra_Library;

/* All integer points of n variables: a grid has rational ones, too. */
static Grid integers(size_t n)
{
    Grid grid(n);
    for (size_t j = 0; j < n; j++)
        grid.add_congruence(Variable(j) %= 0);
    return grid;
}

static void enter(Grid &grid, size_t n, const int64_t *side, size_t rows)
{
    for (size_t i = 0; i < rows; i++) {
        const int64_t *row = side + i * (n + 2);
        Linear_Expression e;
        for (size_t j = 0; j < n; j++)
            e += Coefficient(row[j]) * Variable(j);
        if (row[n + 1] == 0)
            grid.add_congruence((e %= Coefficient(row[n])) / 0);
        else
            grid.add_congruence((e %= Coefficient(row[n])) / Coefficient(row[n + 1]));
    }
}

static bool occurs(size_t n, const int64_t *side, size_t rows, size_t j)
{
    for (size_t i = 0; i < rows; i++) {
        int64_t c = side[i * (n + 2) + j], l = side[i * (n + 2) + n + 1];
        if (l == 0 ? c != 0 : c % l != 0)
            return true;
    }
    return false;
}

static int decide(size_t k)
{
    const problem *p = &problems[k];
    Grid all = integers(p->n);
    enter(all, p->n, p->a, p->ma);
    enter(all, p->n, p->b, p->mb);
    if (!all.is_empty()) {
        (void)all.minimized_grid_generators().begin()->is_point();
        return SOLVED;
    }
    Grid a = integers(p->n);
    enter(a, p->n, p->a, p->ma);
    for (size_t j = 0; j < p->n; j++)
        if (!occurs(p->n, p->a, p->ma, j) || !occurs(p->n, p->b, p->mb, j))
            a.unconstrain(Variable(j));
    (void)a.minimized_congruences();
    return REFUTED;
}

int main()
{
    for (size_t f = 0; f < 2; f++) {
        make_problems(&families[f]);
        measure("ppl", families[f].name, decide, 10);
    }
    return 0;
}
