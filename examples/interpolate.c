/* A worked example: A says that x is even, B that it is odd. Searches for a vector that refutes both together, has it judged, and
 * prints the fact that A implies and B excludes.
 *
 *     cc -Iinclude examples/interpolate.c target/staticlib/libvayalittu.a && ./a.out */
#include <inttypes.h>
#include <stdio.h>

#include "vayalittu.h"

int main(void)
{
    /* A row is the coefficients of x, y and z, a constant, and a modulus, which is 0 for an equation. */
    const int64_t a[5] = {1, -2, 0, 0, 0}; /* x - 2y = 0 */
    const int64_t b[5] = {1, 0, -2, 1, 0}; /* x - 2z = 1 */
    int64_t vector[2], point[3], coeffs[3];
    vayalittu_answer answer;
    vayalittu_fact fact;

    answer = vayalittu_search(3, 1, 1, a, 5, b, 5, 8076, vector, 2, point, 3);
    if (answer.outcome == VAYALITTU_SOLVED) {
        printf("solved: x = %" PRId64 ", y = %" PRId64 ", z = %" PRId64 "\n", point[0], point[1], point[2]);
        return 0;
    }
    if (answer.outcome != VAYALITTU_REFUTED) {
        printf("no answer: refusal %" PRIu32 " after %" PRIu32 " steps\n", answer.refusal, answer.steps);
        return 1;
    }
    printf("refuted in %" PRIu32 " steps by (%" PRId64 ", %" PRId64 ")/%" PRId64 "\n", answer.steps, vector[0], vector[1], answer.q);

    /* The checker trusts nobody, so a vector from any other program can be given to it. */
    fact = vayalittu_judge(3, 1, 1, a, 5, b, 5, answer.q, vector, 2, coeffs, 3);
    if (fact.refusal != 0)
        return 1;
    printf("A implies, and B excludes: %" PRId64 "x + %" PRId64 "y + %" PRId64 "z = %" PRId64 " (mod %" PRId64 ")\n", coeffs[0], coeffs[1],
           coeffs[2], fact.constant, fact.modulus);
    return 0;
}
