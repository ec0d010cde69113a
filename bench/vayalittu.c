/* Vayalittu's library: the search with its vector or point, with a refutation also its interpolant; and the judgement of a given vector.
 * With the word `counts` it measures no time, and writes what the searches come to. */
#include "driver.h"
#include "vayalittu.h"

#define ENOUGH 8076

static int64_t vectors[DISTINCT][12], denominators[DISTINCT], point[12], coeffs[12];
static size_t refuted[DISTINCT], refuted_count;

static vayalittu_answer search(size_t k)
{
    const problem *p = &problems[k];
    size_t width = p->n + 2;
    return vayalittu_search(p->n, p->ma, p->mb, p->a, p->ma * width, p->b, p->mb * width, ENOUGH, vectors[k], p->ma + p->mb, point,
                            p->n);
}

static int judge(size_t k)
{
    const problem *p = &problems[k];
    size_t width = p->n + 2;
    vayalittu_fact fact = vayalittu_judge(p->n, p->ma, p->mb, p->a, p->ma * width, p->b, p->mb * width, denominators[k], vectors[k],
                                          p->ma + p->mb, coeffs, p->n);
    return fact.refusal == 0 ? REFUTED : UNDECIDED;
}

static int interpolate(size_t k)
{
    vayalittu_answer answer = search(k);
    denominators[k] = answer.q;
    if (answer.outcome == VAYALITTU_SOLVED)
        return SOLVED;
    return answer.outcome == VAYALITTU_REFUTED ? judge(k) : UNDECIDED;
}

/* Judges one vector, that of a refuted problem. */
static int judge_refuted(size_t k)
{
    return judge(refuted[k % refuted_count]);
}

static void collect_refuted(void)
{
    refuted_count = 0;
    for (size_t k = 0; k < DISTINCT; k++)
        if (denominators[k] != 0)
            refuted[refuted_count++] = k;
}

static void measure_times(const family *f)
{
    char judged[32];
    measure("vayalittu", f->name, interpolate, 100);
    collect_refuted();
    snprintf(judged, sizeof judged, "judge-%s", f->name);
    measure("vayalittu", judged, judge_refuted, 100);
}

static void write_counts(const family *f)
{
    unsigned outcomes[VAYALITTU_UNFINISHED + 1] = {0};
    unsigned long steps = 0;
    for (size_t k = 0; k < DISTINCT; k++) {
        vayalittu_answer answer = search(k);
        outcomes[answer.outcome]++;
        steps += answer.steps;
    }
    unsigned solved = outcomes[VAYALITTU_SOLVED], refutations = outcomes[VAYALITTU_REFUTED], too_large = outcomes[VAYALITTU_TOO_LARGE];
    printf("%-8s decided %u of %d (%.1f %%), refuted %u (%.1f %%), too large %u (%.1f %%), %.1f steps a problem\n", f->name,
           solved + refutations, DISTINCT, (solved + refutations) * 100.0 / DISTINCT, refutations, refutations * 100.0 / DISTINCT,
           too_large, too_large * 100.0 / DISTINCT, (double)steps / DISTINCT);
}

int main(int argc, char **argv)
{
    int counts = argc > 1 && strcmp(argv[1], "counts") == 0;
    for (size_t f = 0; f < 2; f++) {
        make_problems(&families[f]);
        if (counts)
            write_counts(&families[f]);
        else
            measure_times(&families[f]);
    }
    return 0;
}
