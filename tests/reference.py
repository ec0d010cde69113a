"""What the checker answers, written from the paper, as the changes of docs/changes have it, to be compared with the proved code.

meets(n, rows, X)         whether the point X meets every row; true for no rows
judge(.., q, p, length)   for a vector that refutes (coefficients, constant, modulus) in normal form, else the refusal, 1 to 7

The arguments are n, ma, mb, a, b, q, p as in the checker: sides are flat runs, a row n coefficients, d and l; `length` is
that of the run lent for the coefficients. The indented sentences are the paper's and those of the changes. Run as a program, the
file tests itself.
"""

import itertools
import random
import sys
from math import gcd

TRUE = 0
FALSE = 1


def rows_of(n, side):
    """    A row is n coefficients, a constant d and a modulus l."""
    starts = range(0, len(side), n + 2)
    return [(side[i:i + n], side[i + n], side[i + n + 1]) for i in starts]


def divides(k, x):
    """0 divides only 0, so an equation is a congruence modulo 0."""
    return x == 0 if k == 0 else x % k == 0


def meets(n, rows, X):
    """    Modulus 0 is an equation, c·X = d. A positive modulus is a congruence, c·X ≡ d (mod l). [A point] meets a
    side if it meets each of its rows. Every point meets an empty side."""
    return all(divides(l, sum(c[j] * X[j] for j in range(n)) - d) for c, d, l in rows_of(n, rows))


def occurs(n, side, j):
    """    A variable occurs in a congruence only if the modulus does not divide its coefficient; for equations nothing changes
    (nonzero). [It occurs in a side if it occurs in] some row there."""
    return any(c[j] % l != 0 if l > 0 else c[j] != 0 for c, _, l in rows_of(n, side))


def shape_is_right(n, ma, mb, a, b):
    """    A problem has n variables (1 to 12), mA rows of A and mB rows of B; either may be 0, the total m is 1 to 12. [..]
    a side has exactly (rows × (n + 2)) numbers."""
    counts = 1 <= n <= 12 and 0 <= ma and 0 <= mb and 1 <= ma + mb <= 12
    return counts and len(a) == ma * (n + 2) and len(b) == mb * (n + 2)


def row_is_in_range(row):
    """    Coefficients and constants lie in −1,000,000..1,000,000, moduli in 0..1,000,000."""
    c, d, l = row
    return all(-1000000 <= x <= 1000000 for x in c) and -1000000 <= d <= 1000000 and 0 <= l <= 1000000


def column_sums(n, rows, p):
    return [sum(k * c[j] for k, (c, _, _) in zip(p, rows)) for j in range(n)]


def constant_sum(rows, p):
    return sum(k * d for k, (_, d, _) in zip(p, rows))


def modulus_products(rows, p):
    """p × l for each congruence."""
    return [k * l for k, (_, _, l) in zip(p, rows) if l > 0]


def refusal(n, ma, mb, a, b, q, p, length):
    """    Checks go in this order [..]; each is given exactly in its case."""
    # 1: n, mA, mB, m or a side's length is not as above.
    if not shape_is_right(n, ma, mb, a, b):
        return 1
    # 2: a result run is not exactly its length (.. coefficients n ..).
    if length != n:
        return 2
    rows = rows_of(n, a) + rows_of(n, b)
    # 3: a row's number is out of its range.
    if not all(map(row_is_in_range, rows)):
        return 3
    # 4: the vector's length is not m, or q is out of range [1..1,000,000].
    if len(p) != ma + mb or not 1 <= q <= 1000000:
        return 4
    # 5: a numerator is out of range [−1,000,000..1,000,000].
    if not all(-1000000 <= k <= 1000000 for k in p):
        return 5
    # 6: q fails to divide a column sum or a p × l.
    if not all(x % q == 0 for x in column_sums(n, rows, p) + modulus_products(rows, p)):
        return 6
    # 7: q divides the sum of p × d.
    if constant_sum(rows, p) % q == 0:
        return 7
    return 0


def fact(n, ma, a, b, p):
    """    Over A's rows only, let S be the column sums of p × c, K the sum of p × d, and M the positive gcd of S at all A-local
    variables and of p × l at A's congruences (0 if all are 0, or there are none). The fact is: sum of S·x over shared
    variables ≡ K (mod M), an equality if M = 0."""
    rows, p = rows_of(n, a), p[:ma]
    S = column_sums(n, rows, p)
    in_a = [occurs(n, a, j) for j in range(n)]
    in_b = [occurs(n, b, j) for j in range(n)]
    local = [S[j] for j in range(n) if in_a[j] and not in_b[j]]
    shared = [S[j] if in_a[j] and in_b[j] else 0 for j in range(n)]
    return shared, constant_sum(rows, p), gcd(*local, *modulus_products(rows, p))


def trivial(n, constant):
    """    TRUE is all zeros; FALSE is all zeros with constant 1; both have modulus 0."""
    return [0] * n, constant, 0


def normal_equation(n, shared, K):
    """    M = 0: let g be the gcd of the shared S. If g = 0, the result is TRUE for K = 0, else FALSE. If g does not divide K:
    FALSE. Otherwise divide all by g and make the first nonzero coefficient positive."""
    g = gcd(*shared)
    if g == 0:
        return trivial(n, TRUE if K == 0 else FALSE)
    if K % g != 0:
        return trivial(n, FALSE)
    first = next(s for s in shared if s != 0)
    sign = 1 if first > 0 else -1
    return [sign * s // g for s in shared], sign * K // g, 0


def normal_congruence(n, shared, K, M):
    """    M > 0: let g be the gcd of M and the shared S. If g does not divide K: FALSE. Otherwise divide all by g. If the new
    modulus is 1: TRUE. Otherwise bring coefficients and constant into 0..modulus − 1."""
    g = gcd(M, *shared)
    if K % g != 0:
        return trivial(n, FALSE)
    modulus = M // g
    if modulus == 1:
        return trivial(n, TRUE)
    return [s // g % modulus for s in shared], K // g % modulus, modulus


def judge(n, ma, mb, a, b, q, p, length):
    number = refusal(n, ma, mb, a, b, q, p, length)
    if number != 0:
        return number
    shared, K, M = fact(n, ma, a, b, p)
    return normal_equation(n, shared, K) if M == 0 else normal_congruence(n, shared, K, M)


# The self-test: the paper's cases 1 to 7, variables that only seem to occur, and random problems with accepted vectors.

# Name, (n, ma, mb, a, b, q, p), and the answer as the paper's section "Checked by hand" has it. x, y, z are places 1, 2, 3.
PARITY = (3, 1, 1, [1, -2, 0, 0, 0], [1, 0, -2, 1, 0])
PAPER = [
    ("1", (3, 2, 1, [1, 1, 0, 1, 0, 1, -1, 0, 1, 0], [0, 2, 2, 3, 0], 2, [1, -1, 1]), ([0, 1, 0], 0, 0)),
    ("2", PARITY + (2, [1, 1]), ([1, 0, 0], 0, 2)),
    ("3", (2, 2, 1, [2, 2, 4, 8, 2, 1, 4, 8], [4, 0, 4, 8], 8, [2, -4, -1]), ([3, 0], 2, 4)),
    ("4", (2, 2, 1, [1, 0, 1, 2, 1, 1, 2, 4], [2, 1, 4, 8], 2, [1, 1, -1]), ([0, 1], 1, 2)),
    ("5", (1, 1, 0, [2, 1, 0], [], 2, [1]), ([0], 1, 0)),
    ("5, exchanged", (1, 0, 1, [], [2, 1, 0], 2, [1]), ([0], 0, 0)),
    ("6", (1, 1, 1, [1, 0, 0], [1, 1, 0], 2, [1, -1]), ([1], 0, 0)),
    ("7, p 1, 0", PARITY + (2, [1, 0]), 6),
    ("7, p 2, 2", PARITY + (2, [2, 2]), 7),
    ("7, p 0, 0", PARITY + (2, [0, 0]), 7),
    ("7, q 1", PARITY + (1, [1, 1]), 7),
]

# The same, worked out by hand: x does not occur in 8x - 4y ≡ 0 (mod 8), nor does anything modulo 1.
SEEMING = [
    ("8x in B", (2, 1, 1, [-2, 1, 1, 0], [8, -4, 0, 8], 8, [4, 1]), ([0, 1], 1, 2)),
    ("8x in A", (2, 1, 1, [8, -4, 0, 8], [-2, 1, 1, 0], 8, [1, 4]), ([0, 1], 0, 2)),
    ("y modulo 1 in B", (3, 1, 2, [1, -2, 0, 0, 0], [1, 0, -2, 1, 0, 0, 1, 0, 0, 1], 2, [1, 1, 0]), ([1, 0, 0], 0, 2)),
]


def expect(holds, what):
    """Counts a check that holds, and ends the program at the first that does not."""
    expect.count += 1
    if not holds:
        sys.exit(f"failed: {what}")


expect.count = 0


def worked_case(name, call, answer):
    expect(judge(*call, call[0]) == answer, f"case {name}")


def random_side(rng, n, m):
    """Rows that a small point meets, so that a side often has points in the box; in one side of twenty they need not."""
    point = [rng.randint(-2, 2) for _ in range(n)]
    shift = int(rng.random() < 0.05)
    side = []
    for _ in range(m):
        c = [rng.choice([0, 0, 1, -1, 2, -2, 3, 4, -6]) for _ in range(n)]
        l = rng.choice([0, 0, 2, 3, 4, 6, 8])
        side += c + [sum(map(int.__mul__, c, point)) + l * rng.randint(-1, 1) + shift, l]
    return side


def random_call(rng):
    n, ma, mb = rng.randint(1, 3), rng.randint(0, 2), rng.randint(0, 2)
    a, b = random_side(rng, n, ma), random_side(rng, n, mb)
    return n, ma, mb, a, b, rng.choice([2, 2, 2, 3, 4, 6]), [rng.randint(-4, 4) for _ in range(ma + mb)]


def is_normal(coefficients, constant, modulus):
    if not any(coefficients):
        return constant in (TRUE, FALSE) and modulus == 0
    if modulus == 0:
        return gcd(*coefficients) == 1 and next(c for c in coefficients if c != 0) > 0
    return (modulus > 1 and gcd(modulus, *coefficients) == 1
            and all(0 <= x < modulus for x in coefficients + [constant]))


def changes(n, side, j):
    """Whether a step of variable j alone changes what some row says: occurrence, read from `meets`."""
    step = [int(k == j) for k in range(n)]
    return not all(meets(n, c + [0, l], step) for c, _, l in rows_of(n, side))


def accepted_call(call, fact):
    """That the fact is an interpolant, on a box of points, and in normal form."""
    n, _, _, a, b = call[:5]
    coefficients, constant, modulus = fact
    row = coefficients + [constant, modulus]
    expect(is_normal(coefficients, constant, modulus), f"normal form of {call}")
    expect(all(c == 0 or changes(n, a, j) and changes(n, b, j) for j, c in enumerate(coefficients)), f"shared in {call}")
    box = list(itertools.product(range(-4, 5), repeat=n))
    expect(all(meets(n, row, X) for X in box if meets(n, a, X)), f"A implies the fact of {call}")
    expect(not any(meets(n, row, X) for X in box if meets(n, b, X)), f"B excludes the fact of {call}")


if __name__ == '__main__':
    for case in PAPER + SEEMING:
        worked_case(*case)
    rng = random.Random(20260101)
    accepted = 0
    while accepted < 3000:
        call = random_call(rng)
        answer = judge(*call, call[0])
        if not isinstance(answer, int):
            accepted += 1
            accepted_call(call, answer)
    print(f"{expect.count} checks passed")
