/* Calls every function of vayalittu.h on the paper's cases, on every refusal and on hostile numbers: with every run right before memory
 * that may not be touched, and then right after it. */
#include "edge.h"
#include "vayalittu.h"

#define LENGTH(array) (sizeof(array) / sizeof *(array))

static int checks, failures;

static void expect(int holds, const char *what, int line)
{
    checks++;
    if (!holds) {
        failures++;
        fprintf(stderr, "line %d: %s\n", line, what);
    }
}

#define EXPECT(what) expect(what, #what, __LINE__)

/* ---- Runs */

static int holds(const int64_t *run, size_t length, const int64_t *numbers)
{
    return length == 0 || memcmp(run, numbers, length * sizeof *run) == 0;
}

static int is_unwritten(const int64_t *run, size_t length)
{
    for (size_t i = 0; i < length; i++)
        if (run[i] != UNWRITTEN)
            return 0;
    return 1;
}

/* ---- Problems */

typedef struct {
    size_t n, ma, mb;
    const int64_t *a;
    size_t a_len;
    const int64_t *b;
    size_t b_len;
} problem;

#define PROBLEM(n, ma, mb, a, b) {n, ma, mb, edge(a, sizeof a), LENGTH(a), edge(b, sizeof b), LENGTH(b)}
#define GIVEN(p) (p)->n, (p)->ma, (p)->mb, (p)->a, (p)->a_len, (p)->b, (p)->b_len

/* A vector that is accepted, its fact, and what the run then holds. */
static void accepted(const problem *p, int64_t q, const int64_t *numerators, const int64_t *coefficients, int64_t constant, int64_t modulus)
{
    size_t m = p->ma + p->mb;
    const int64_t *vector = edge(numerators, m * sizeof *numerators);
    int64_t *coeffs = unwritten(p->n);
    vayalittu_fact fact = vayalittu_judge(GIVEN(p), q, vector, m, coeffs, p->n);
    EXPECT(fact.refusal == 0 && fact.constant == constant && fact.modulus == modulus);
    EXPECT(holds(coeffs, p->n, coefficients));
}

/* A vector that is refused; the run is then untouched. */
static void refused(const problem *p, int64_t q, const int64_t *numerators, size_t m, uint32_t refusal)
{
    const int64_t *vector = edge(numerators, m * sizeof *numerators);
    int64_t *coeffs = unwritten(p->n);
    vayalittu_fact fact = vayalittu_judge(GIVEN(p), q, vector, m, coeffs, p->n);
    EXPECT(fact.refusal == refusal && fact.constant == 0 && fact.modulus == 0);
    EXPECT(is_unwritten(coeffs, p->n));
}

/* ---- The paper's section "Checked by hand" */

static void the_papers_facts(void)
{
    static const int64_t sums_a[] = {1, 1, 0, 1, 0, 1, -1, 0, 1, 0}, sums_b[] = {0, 2, 2, 3, 0};
    static const int64_t parity_a[] = {1, -2, 0, 0, 0}, parity_b[] = {1, 0, -2, 1, 0};
    static const int64_t eights_a[] = {2, 2, 4, 8, 2, 1, 4, 8}, eights_b[] = {4, 0, 4, 8};
    static const int64_t mixed_a[] = {1, 0, 1, 2, 1, 1, 2, 4}, mixed_b[] = {2, 1, 4, 8};
    static const int64_t half[] = {2, 1, 0}, zero[] = {1, 0, 0}, one[] = {1, 1, 0};
    problem sums = PROBLEM(3, 2, 1, sums_a, sums_b), parity = PROBLEM(3, 1, 1, parity_a, parity_b);
    problem eights = PROBLEM(2, 2, 1, eights_a, eights_b), mixed = PROBLEM(2, 2, 1, mixed_a, mixed_b);
    problem in_a = {1, 1, 0, edge(half, sizeof half), 3, NULL, 0}, in_b = {1, 0, 1, NULL, 0, edge(half, sizeof half), 3};
    problem two = PROBLEM(1, 1, 1, zero, one);

    accepted(&sums, 2, (int64_t[]){1, -1, 1}, (int64_t[]){0, 1, 0}, 0, 0);
    accepted(&parity, 2, (int64_t[]){1, 1}, (int64_t[]){1, 0, 0}, 0, 2);
    accepted(&eights, 8, (int64_t[]){2, -4, -1}, (int64_t[]){3, 0}, 2, 4);
    accepted(&mixed, 2, (int64_t[]){1, 1, -1}, (int64_t[]){0, 1}, 1, 2);
    accepted(&in_a, 2, (int64_t[]){1}, (int64_t[]){0}, 1, 0);
    accepted(&in_b, 2, (int64_t[]){1}, (int64_t[]){0}, 0, 0);
    accepted(&two, 2, (int64_t[]){1, -1}, (int64_t[]){1}, 0, 0);
    refused(&parity, 2, (int64_t[]){1, 0}, 2, 6);
    refused(&parity, 2, (int64_t[]){2, 2}, 2, 7);
    refused(&parity, 2, (int64_t[]){0, 0}, 2, 7);
    refused(&parity, 1, (int64_t[]){1, 1}, 2, 7);
}

static void searched(const problem *p, uint32_t budget, vayalittu_answer expected, const int64_t *vector, const int64_t *point)
{
    size_t m = p->ma + p->mb;
    int64_t *v = unwritten(m), *x = unwritten(p->n);
    vayalittu_answer answer = vayalittu_search(GIVEN(p), budget, v, m, x, p->n);
    EXPECT(answer.refusal == expected.refusal && answer.outcome == expected.outcome);
    EXPECT(answer.steps == expected.steps && answer.q == expected.q);
    EXPECT(vector ? holds(v, m, vector) : is_unwritten(v, m));
    EXPECT(point ? holds(x, p->n, point) : is_unwritten(x, p->n));
}

static void the_papers_searches(void)
{
    static const int64_t parity_a[] = {1, -2, 0, 0, 0}, parity_b[] = {1, 0, -2, 1, 0};
    static const int64_t large_a[] = {1, 0, 1000000, 0, -1000000, 1, 0, 0}, solved_a[] = {2, 6, 0};
    problem parity = PROBLEM(3, 1, 1, parity_a, parity_b);
    problem large = {2, 2, 0, edge(large_a, sizeof large_a), 8, NULL, 0};
    problem solved = {1, 1, 0, edge(solved_a, sizeof solved_a), 3, NULL, 0};

    searched(&parity, 0, (vayalittu_answer){0, VAYALITTU_UNFINISHED, 0, 0}, NULL, NULL);
    searched(&parity, 3, (vayalittu_answer){0, VAYALITTU_UNFINISHED, 3, 0}, NULL, NULL);
    searched(&parity, 4, (vayalittu_answer){0, VAYALITTU_REFUTED, 4, 2}, (int64_t[]){-1, 1}, NULL);
    searched(&parity, UINT32_MAX, (vayalittu_answer){0, VAYALITTU_REFUTED, 4, 2}, (int64_t[]){-1, 1}, NULL);
    searched(&large, 1, (vayalittu_answer){0, VAYALITTU_UNFINISHED, 1, 0}, NULL, NULL);
    searched(&large, 2, (vayalittu_answer){8, VAYALITTU_TOO_LARGE, 2, 0}, NULL, NULL);
    searched(&solved, 1, (vayalittu_answer){0, VAYALITTU_SOLVED, 1, 0}, NULL, (int64_t[]){3});
}

/* Before the first step: the rows, and 1 on the diagonal from table row 13 on for the columns in use. */
static void the_first_table(void)
{
    static const int64_t parity_a[] = {1, -2, 0, 0, 0}, parity_b[] = {1, 0, -2, 1, 0};
    problem parity = PROBLEM(3, 1, 1, parity_a, parity_b);
    int64_t *cells = unwritten(VAYALITTU_CELLS), expected[VAYALITTU_CELLS] = {1, -2, 0};
    expected[24] = 1;
    expected[26] = -2;
    for (int j = 0; j < 3; j++)
        expected[(12 + j) * 24 + j] = 1;
    EXPECT(vayalittu_table(GIVEN(&parity), 0, cells, VAYALITTU_CELLS) == 0);
    EXPECT(holds(cells, VAYALITTU_CELLS, expected));
}

/* ---- Text lines */

static void responded(const char *line, const char *answer)
{
    uint8_t blank[VAYALITTU_ANSWER_MAX], *out;
    size_t length = strlen(answer);
    memset(blank, '?', sizeof blank);
    out = edge(blank, sizeof blank);
    EXPECT(vayalittu_respond(edge(line, strlen(line)), strlen(line), out, sizeof blank) == length);
    EXPECT(memcmp(out, answer, length) == 0 && memcmp(out + length, blank, sizeof blank - length) == 0);
}

static void text_lines(void)
{
    uint8_t blank[VAYALITTU_ANSWER_MAX - 1], *out;
    memset(blank, '?', sizeof blank);
    out = edge(blank, sizeof blank);
    /* the paper's line, example 3 of the article with budget 4 */
    responded("010301010000000400000001fffffffe0000000000000000000000000000000100000000fffffffe0000000100000000",
              "02000000040200000002ffffffff00000001\n"
              "050300000000000000010000000000000000000000000000000000000000000000000000000000000002\n");
    responded("010301010000000300000001fffffffe0000000000000000000000000000000100000000fffffffe0000000100000000",
              "0400000003\n");
    responded("", "060900000000\n");
    responded("01030101000000", "060900000000\n");
    responded("0103010100000004", "060100000000\n");
    EXPECT(vayalittu_respond(NULL, 0, out, sizeof blank) == 0);
    EXPECT(memcmp(out, blank, sizeof blank) == 0);
}

/* ---- Refusals, one after the other in the paper's order */

static void everywhere(const problem *p, int64_t q, const int64_t *vector, size_t m, uint32_t refusal)
{
    int64_t *coeffs = unwritten(1), *v = unwritten(1), *x = unwritten(1), *cells = unwritten(VAYALITTU_CELLS);
    EXPECT(vayalittu_judge(GIVEN(p), q, vector, m, coeffs, 1).refusal == refusal);
    EXPECT(vayalittu_search(GIVEN(p), 5, v, 1, x, 1).refusal == refusal);
    EXPECT(vayalittu_table(GIVEN(p), 5, cells, VAYALITTU_CELLS) == refusal);
    EXPECT(is_unwritten(coeffs, 1) && is_unwritten(v, 1) && is_unwritten(x, 1) && is_unwritten(cells, VAYALITTU_CELLS));
}

static void refusals(void)
{
    static const int64_t row[] = {2, 1, 0}, wide[] = {1000001, 1, 0}, negative[] = {2, 1, -1};
    const int64_t *a = edge(row, sizeof row), one = 1, *p = edge(&one, sizeof one);
    int64_t *v = unwritten(1), *x = unwritten(1), *cells = unwritten(863), *coeffs = unwritten(1), *longer = unwritten(2);
    problem right = {1, 1, 0, a, 3, NULL, 0};
    problem shapes[] = {{0, 1, 0, a, 3, NULL, 0},  {13, 1, 0, a, 3, NULL, 0}, {1, 0, 0, NULL, 0, NULL, 0},
                        {1, 13, 0, a, 3, NULL, 0}, {1, 1, 0, a, 2, NULL, 0},  {1, 1, 1, a, 3, NULL, 0},
                        {SIZE_MAX, SIZE_MAX, SIZE_MAX, a, 3, a, 3},           {1, SIZE_MAX, 2, a, 3, a, 3}};
    problem ranges[] = {{1, 1, 0, edge(wide, sizeof wide), 3, NULL, 0}, {1, 1, 0, edge(negative, sizeof negative), 3, NULL, 0}};

    for (size_t i = 0; i < LENGTH(shapes); i++)
        everywhere(&shapes[i], 2, p, 1, 1);
    for (size_t i = 0; i < LENGTH(ranges); i++)
        everywhere(&ranges[i], 2, p, 1, 3);

    EXPECT(vayalittu_search(GIVEN(&ranges[0]), 5, v, 0, x, 1).refusal == 2);
    EXPECT(vayalittu_search(GIVEN(&right), 5, v, 1, NULL, 0).refusal == 2);
    EXPECT(vayalittu_table(GIVEN(&right), 5, cells, 863) == 2);
    EXPECT(vayalittu_judge(GIVEN(&ranges[0]), 2, p, 1, longer, 2).refusal == 2);
    EXPECT(vayalittu_judge(GIVEN(&right), 2, p, 1, NULL, 0).refusal == 2);
    EXPECT(vayalittu_judge(GIVEN(&right), 2, NULL, 0, coeffs, 1).refusal == 4);
    EXPECT(is_unwritten(v, 1) && is_unwritten(x, 1) && is_unwritten(cells, 863) && is_unwritten(coeffs, 1) && is_unwritten(longer, 2));

    refused(&right, 0, &one, 1, 4);
    refused(&right, 1000001, &one, 1, 4);
    refused(&right, INT64_MIN, &one, 1, 4);
    refused(&right, 2, (int64_t[]){INT64_MIN}, 1, 5);
    refused(&right, 2, (int64_t[]){1000001}, 1, 5);
}

int main(void)
{
    for (at_the_end = 0; at_the_end < 2; at_the_end++) {
        the_papers_facts();
        the_papers_searches();
        the_first_table();
        text_lines();
        refusals();
        used = 0;
    }
    printf("C: %d checks, %d failed\n", checks, failures);
    return failures != 0;
}
