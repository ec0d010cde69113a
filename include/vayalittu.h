/* Vayalittu for C: looks for a vector that refutes two systems of integer equations and congruences together, and judges one: whether
 * it refutes, and its interpolant. `./build vayalittu` writes target/staticlib/libvayalittu.a; link it, and nothing else, into a
 * program for x86-64.
 *
 * A problem is n variables (1 to 12), ma rows of side A and mb rows of side B (together 1 to 12). A row is n coefficients, a
 * constant and a modulus, which is 0 for an equation, so that a side has exactly ma * (n + 2) or mb * (n + 2) numbers.
 * Coefficients and constants lie in -1,000,000..1,000,000, moduli in 0..1,000,000.
 *
 * Every function takes any numbers and any lengths, and returns. Lengths are in elements; NULL with length 0 is an empty run.
 * What C must keep, since nothing can test it: a pointer is valid for as many elements as its length says, and a run that is
 * written overlaps no other run of the call.
 *
 * Refusals, in the order in which they are tested, but that 9 comes first for a text line; a refusal leaves every run as it was:
 *   1  n, ma, mb, their sum or a side's length is not as above
 *   2  a result run is not exactly its length (vector ma + mb, point n, coefficients n, table 864)
 *   3  a number of a row is out of its range
 *   4  the vector's length is not ma + mb, or q is not in 1..1,000,000
 *   5  a numerator is not in -1,000,000..1,000,000
 *   6  q fails to divide a column sum or the product of a numerator and its row's modulus
 *   7  q divides the sum of the products of numerators and constants
 *   8  the search ends as too large
 *   9  a text line is no frame
 */
#ifndef VAYALITTU_H
#define VAYALITTU_H

#include <stddef.h>
#include <stdint.h>

#ifdef __cplusplus
extern "C" {
#endif

/* The numbers of a table: 36 rows of 24 cells, row by row. */
#define VAYALITTU_CELLS 864

/* The longest answer to a text line, in bytes. */
#define VAYALITTU_ANSWER_MAX 346

/* The outcomes of a search. */
enum { VAYALITTU_REFUTED = 1, VAYALITTU_SOLVED = 2, VAYALITTU_TOO_LARGE = 3, VAYALITTU_UNFINISHED = 4 };

/* What a search answers.
 *   refusal   0, or the number of the refusal (8 together with outcome 3)
 *   outcome   one of the above; 0 when refused for another reason than 8
 *   steps     the steps that were taken; 0 when refused for another reason than 8
 *   q         the vector's denominator; 0 unless refuted */
typedef struct {
    uint32_t refusal;
    uint32_t outcome;
    uint32_t steps;
    int64_t q;
} vayalittu_answer;

/* What is answered of a vector.
 *   refusal              0, or the number of the refusal
 *   constant, modulus    those of its interpolant; both 0 when refused */
typedef struct {
    uint32_t refusal;
    int64_t constant;
    int64_t modulus;
} vayalittu_fact;

/* Judges the vector with denominator q and numerators p (A's rows first). The verdict is the refusal: 0 if the vector refutes both
 * sides together, so that no integer point meets both, else 1 to 7. Who wants the verdict alone lends n numbers all the same, and looks
 * at the refusal only. 12 numbers are enough for every n: lent as the lesser of n and 12, they leave a larger n to refusal 1.
 *
 * Where the refusal is 0, the vector's interpolant is given in normal form: its coefficients are written into `coeffs`, its constant
 * and modulus are answered. The fact is coefficients * x = constant, modulo the modulus unless that is 0. Every integer point of A
 * meets it, none of B does, and only variables that occur in both sides have a coefficient other than 0. A variable occurs in an
 * equation if its coefficient is not 0, and in a congruence if the modulus does not divide its coefficient. TRUE is all zeros; FALSE
 * is all zeros with constant 1; both have modulus 0. Otherwise the modulus is 0 and the first nonzero coefficient is positive, or it is
 * 2 or more and all numbers lie in 0..modulus - 1. A refusal leaves `coeffs` as it was. */
vayalittu_fact vayalittu_judge(size_t n, size_t ma, size_t mb, const int64_t *a, size_t a_len, const int64_t *b, size_t b_len,
                               int64_t q, const int64_t *p, size_t p_len, int64_t *coeffs, size_t coeffs_len);

/* Searches with a budget of steps. Refuted: the ma + mb numerators are written into `vector`, q is answered, and `point` is as it
 * was. Solved: n integers that meet all rows are written into `point`, and `vector` is as it was. Too large, unfinished, and
 * refusals 1, 2 and 3 write nothing. */
vayalittu_answer vayalittu_search(size_t n, size_t ma, size_t mb, const int64_t *a, size_t a_len, const int64_t *b,
                                  size_t b_len, uint32_t budget, int64_t *vector, size_t vector_len, int64_t *point,
                                  size_t point_len);

/* Copies the search's table after a budget of steps, or after the last, if there are fewer, into `cells`. 0, or refusal 1, 2 or
 * 3, which write nothing. A search that ends as too large gives the table before that step; one that refutes or solves gives it with
 * its last swap and negation. */
uint32_t vayalittu_table(size_t n, size_t ma, size_t mb, const int64_t *a, size_t a_len, const int64_t *b, size_t b_len,
                         uint32_t budget, int64_t *cells, size_t cells_len);

/* Answers one text line, a frame 01 in lower-case hexadecimal without its line end, as the program `interp` does: writes the answer
 * lines with their line ends into `out`, and answers how many bytes they are. Any bytes are taken; what is no frame is answered
 * with refusal 9 in a frame 06. Where out_len is below VAYALITTU_ANSWER_MAX it answers 0 and writes nothing. */
size_t vayalittu_respond(const uint8_t *line, size_t line_len, uint8_t *out, size_t out_len);

#ifdef __cplusplus
}
#endif

#endif
