/* z3: all rows over the integers, a congruence by `mod`; a model, or that there is none. */
#include "driver.h"
#include <z3.h>

static Z3_context context;
static Z3_sort integers;
static Z3_ast variables[12];

static Z3_ast number(int64_t x)
{
    return Z3_mk_int64(context, x, integers);
}

static Z3_ast sum(const problem *p, const int64_t *row)
{
    Z3_ast terms[12];
    for (size_t j = 0; j < p->n; j++) {
        Z3_ast factors[2] = {number(row[j]), variables[j]};
        terms[j] = Z3_mk_mul(context, 2, factors);
    }
    return Z3_mk_add(context, (unsigned)p->n, terms);
}

static Z3_ast meets(const problem *p, const int64_t *row)
{
    Z3_ast parts[2] = {sum(p, row), number(row[p->n])};
    if (row[p->n + 1] == 0)
        return Z3_mk_eq(context, parts[0], parts[1]);
    return Z3_mk_eq(context, Z3_mk_mod(context, Z3_mk_sub(context, 2, parts), number(row[p->n + 1])), number(0));
}

static int decide(size_t k)
{
    const problem *p = &problems[k];
    Z3_solver solver = Z3_mk_simple_solver(context);
    Z3_lbool answer;
    Z3_solver_inc_ref(context, solver);
    for (size_t i = 0; i < p->ma + p->mb; i++)
        Z3_solver_assert(context, solver, meets(p, row_of(p, i)));
    answer = Z3_solver_check(context, solver);
    if (answer == Z3_L_TRUE)
        (void)Z3_solver_get_model(context, solver);
    Z3_solver_dec_ref(context, solver);
    return answer == Z3_L_TRUE ? SOLVED : answer == Z3_L_FALSE ? REFUTED : UNDECIDED;
}

int main(void)
{
    Z3_config config = Z3_mk_config();
    context = Z3_mk_context(config);
    Z3_del_config(config);
    integers = Z3_mk_int_sort(context);
    for (int j = 0; j < 12; j++)
        variables[j] = Z3_mk_const(context, Z3_mk_int_symbol(context, j), integers);
    for (size_t f = 0; f < 2; f++) {
        make_problems(&families[f]);
        measure("z3", families[f].name, decide, 1);
    }
    return 0;
}
