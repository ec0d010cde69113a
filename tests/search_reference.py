"""A second search machine, written from the paper alone, to be compared with the proved code.

It uses Python's unbounded integers and the standard library only. A side is a
flat list of numbers, row by row: n coefficients, constant d, modulus l.

To be called:
  search(n, ma, mb, a, b, budget, vector_length, point_length)
      ('refused', k) for refusals 1, 2 and 3, otherwise
      (outcome, steps, q, numerators, point), where outcome is 'refuted',
      'solved', 'too large' or 'unfinished' and what does not apply is None.
  table_after(n, ma, mb, a, b, budget)
      the 864 cells after that many steps (or after the last), row by row;
      ('refused', k) for refusals 1 and 3.
  answer_line(line)
      the frame that answers one input line (bytes, without its line end):
      02, 03, 04 or 06. The interpolant frame 05 is not made here.

Parts of the machine:
  refusal            the first of refusals 1, 2, 3 that applies, or None
  State              table, constants and the pivots so far
  State.step         one step: reduce or close
  State.reduce       the column operation
  State.close        swap, negation, residual, z; ends or goes on
  State.vector       the refuting vector
  State.point        the lower table times z
  divide_cut         division with the quotient cut towards zero

Checks:
  self_test          seeded random problems and the paper's cases 8 and 9
  compare            frames of a file IN against the lines of a file OUT

Run without arguments for the self-test, or with IN and OUT to compare.
"""

import itertools
import random
import sys
from math import gcd

TABLE_ROWS = 36
TABLE_COLUMNS = 24
LOWER = 12                    # table row 13 is the first of the lower table
CELL_LIMIT = 268_435_456      # 2^28: cells, z, places of the point
VECTOR_LIMIT = 1_000_000      # numerators and q
ROW_LIMIT = 1_000_000         # coefficients, constants, moduli
MOST_STEPS = 8_076
MOST_DIGITS = 1_360
LARGEST_BUDGET = 2 ** 32 - 1
PROBLEMS = 5000               # random problems in the self-test


class TooLarge(Exception):
    """A step would put too large a magnitude somewhere."""


def divide_cut(dividend, divisor):
    """The quotient, cut towards zero."""
    quotient = abs(dividend) // abs(divisor)
    return quotient if (dividend < 0) == (divisor < 0) else -quotient


def within(number, limit):
    """The number itself, if its magnitude is allowed."""
    if abs(number) > limit:
        raise TooLarge
    return number


def split_rows(n, side):
    """The rows of a side as (coefficients, constant, modulus)."""
    width = n + 2
    return [(side[at:at + n], side[at + n], side[at + n + 1])
            for at in range(0, len(side), width)]


def refusal(n, ma, mb, a, b, vector_length=None, point_length=None):
    """The first refusal of 1, 2, 3 that applies, or None."""
    if not (1 <= n <= 12 and ma >= 0 and mb >= 0 and 1 <= ma + mb <= 12):
        return 1
    if len(a) != ma * (n + 2) or len(b) != mb * (n + 2):
        return 1
    if vector_length is not None and vector_length != ma + mb:
        return 2
    if point_length is not None and point_length != n:
        return 2
    for coefficients, constant, modulus in split_rows(n, a) + split_rows(n, b):
        if any(abs(number) > ROW_LIMIT for number in coefficients):
            return 3
        if abs(constant) > ROW_LIMIT or not 0 <= modulus <= ROW_LIMIT:
            return 3
    return None


class State:
    """The table and what is known of the rows closed so far.

    Rows and columns are counted from 0 here. The pivot in column j stands in
    row pivot_rows[j] and has the value z[j]; `row` is the row in hand.
    """

    def __init__(self, n, rows):
        self.n = n
        self.m = len(rows)
        self.constants = [constant for _, constant, _ in rows]
        self.table = [[0] * TABLE_COLUMNS for _ in range(TABLE_ROWS)]
        self.columns = n      # the paper's N, growing with each congruence
        for i, (coefficients, _, modulus) in enumerate(rows):
            self.table[i][:n] = coefficients
            if modulus > 0:
                self.table[i][self.columns] = modulus
                self.columns += 1
        for j in range(self.columns):
            self.table[LOWER + j][j] = 1
        self.row = 0
        self.pivot_rows = []
        self.z = []
        self.steps = 0
        self.ending = None    # (outcome, q, numerators, point) once finished

    def step(self):
        """One step; a step that would be too large counts and ends it."""
        self.steps += 1
        entries = self.table[self.row]
        first_free = len(self.pivot_rows)
        nonzero = [j for j in range(first_free, self.columns) if entries[j] != 0]
        try:
            if len(nonzero) >= 2:
                self.reduce(nonzero)
            else:
                self.close(nonzero)
        except TooLarge:      # nothing was written yet
            self.ending = ('too large', None, None, None)

    def reduce(self, nonzero):
        """Subtract quotient x smallest column from the first other one."""
        entries = self.table[self.row]
        first = min(nonzero, key=lambda j: (abs(entries[j]), j))
        second = next(j for j in nonzero if j != first)
        quotient = divide_cut(entries[second], entries[first])
        column = [within(cells[second] - quotient * cells[first], CELL_LIMIT)
                  for cells in self.table]
        for cells, number in zip(self.table, column):
            cells[second] = number

    def close(self, nonzero):
        """Close the row in hand; all is worked out before any is kept."""
        table = [list(cells) for cells in self.table]
        place = len(self.pivot_rows)
        pivot = 0
        if nonzero:
            other = nonzero[0]
            sign = -1 if table[self.row][other] < 0 else 1
            for cells in table:
                cells[place], cells[other] = cells[other], cells[place]
                cells[place] *= sign
            pivot = table[self.row][place]
        entries = table[self.row]
        residual = self.constants[self.row] - sum(
            entries[j] * self.z[j] for j in range(place))
        z = list(self.z)
        pivot_rows = list(self.pivot_rows)
        ending = None
        if pivot > 0 and residual % pivot == 0:
            z.append(within(residual // pivot, CELL_LIMIT))
            pivot_rows.append(self.row)
        elif pivot > 0 or residual != 0:
            q, numerators = self.vector(table, pivot)
            ending = ('refuted', q, numerators, None)
        if ending is None and self.row == self.m - 1:
            ending = ('solved', None, None, self.point(table, z))
        self.table, self.z, self.pivot_rows = table, z, pivot_rows
        self.ending = ending
        self.row += 1

    def vector(self, table, pivot):
        """Denominator and numerators when the row in hand refutes."""
        numerators = [0] * self.m
        numerators[self.row] = 1
        q = within(pivot if pivot > 0 else 1, VECTOR_LIMIT)
        for j in reversed(range(len(self.pivot_rows))):
            pivot_row = self.pivot_rows[j]
            e = table[pivot_row][j]
            s = sum(p * table[k][j] for k, p in enumerate(numerators))
            if s % e != 0:
                factor = e // gcd(s, e)
                numerators = [within(p * factor, VECTOR_LIMIT)
                              for p in numerators]
                q = within(q * factor, VECTOR_LIMIT)
                s *= factor
            numerators[pivot_row] = within(-(s // e), VECTOR_LIMIT)
        if pivot == 0:
            total = sum(p * d for p, d in zip(numerators, self.constants))
            q = 2
            while total % q == 0:
                q += 1
            within(q, VECTOR_LIMIT)
        return q, numerators

    def point(self, table, z):
        """The first n places of the lower table times z."""
        return [within(sum(table[LOWER + i][j] * z[j] for j in range(len(z))),
                       CELL_LIMIT)
                for i in range(self.n)]


def run(n, a, b, budget):
    """The state after `budget` steps, or after the last if fewer."""
    state = State(n, split_rows(n, a) + split_rows(n, b))
    while state.ending is None and state.steps < budget:
        state.step()
    return state


def search(n, ma, mb, a, b, budget, vector_length, point_length):
    """The answer of the search; see the top of this file."""
    number = refusal(n, ma, mb, a, b, vector_length, point_length)
    if number is not None:
        return ('refused', number)
    state = run(n, a, b, budget)
    if state.ending is None:
        return ('unfinished', state.steps, None, None, None)
    outcome, q, numerators, point = state.ending
    return (outcome, state.steps, q, numerators, point)


def table_after(n, ma, mb, a, b, budget):
    """The 864 cells after `budget` steps, row by row."""
    number = refusal(n, ma, mb, a, b)
    if number is not None:
        return ('refused', number)
    return [cell for cells in run(n, a, b, budget).table for cell in cells]


# Frames

def to_hex(number, size):
    """Big-endian two's complement in `size` bytes."""
    return (number % 256 ** size).to_bytes(size, 'big').hex()


def refusal_frame(number, steps=0):
    return '06' + to_hex(number, 1) + to_hex(steps, 4)


def answer_line(line):
    """The answering frame 02, 03, 04 or 06 for one line of bytes."""
    if len(line) > MOST_DIGITS or len(line) % 2 != 0:
        return refusal_frame(9)
    if any(character not in b'0123456789abcdef' for character in line):
        return refusal_frame(9)
    frame = bytes.fromhex(line.decode('ascii'))
    if len(frame) < 8 or frame[0] != 1:
        return refusal_frame(9)
    n, ma, mb = frame[1:4]
    budget = int.from_bytes(frame[4:8], 'big')
    if len(frame) != 8 + 4 * (ma + mb) * (n + 2):
        return refusal_frame(1)
    numbers = [int.from_bytes(frame[at:at + 4], 'big', signed=True)
               for at in range(8, len(frame), 4)]
    cut = ma * (n + 2)
    answer = search(n, ma, mb, numbers[:cut], numbers[cut:], budget, ma + mb, n)
    if answer[0] == 'refused':
        return refusal_frame(answer[1])
    outcome, steps, q, numerators, point = answer
    if outcome == 'too large':
        return refusal_frame(8, steps)
    if outcome == 'unfinished':
        return '04' + to_hex(steps, 4)
    if outcome == 'solved':
        return ('03' + to_hex(steps, 4) + to_hex(n, 1)
                + ''.join(to_hex(number, 4) for number in point))
    return ('02' + to_hex(steps, 4) + to_hex(ma + mb, 1) + to_hex(q, 4)
            + ''.join(to_hex(number, 4) for number in numerators))


def read_lines(path):
    """Lines end with byte 10; a last line without it counts if not empty."""
    with open(path, 'rb') as file:
        lines = file.read().split(b'\n')
    return lines if lines[-1] else lines[:-1]


def compare(in_path, out_path):
    """Compare line by line; a 05 line must follow each 02, its content is
    not looked at. True if all lines agree."""
    expected = []             # (frame of the reference, input line number)
    for at, line in enumerate(read_lines(in_path), 1):
        frame = answer_line(line)
        expected.append((frame, at))
        if frame.startswith('02'):
            expected.append(('05', at))
    found = [line.decode('ascii', 'replace') for line in read_lines(out_path)]
    agreed = skipped = 0
    disagreement = None
    for at, (want, have) in enumerate(
            itertools.zip_longest(expected, found), 1):
        if want is not None and have is not None:
            if want[0] == '05' and have.startswith('05'):
                skipped += 1
                continue
            if want[0] == have:
                agreed += 1
                continue
        if disagreement is None:
            disagreement = (at, want, have)
    print(f'{agreed} lines agree, {skipped} interpolant lines not compared, '
          f'{len(expected) - agreed - skipped} of the reference do not agree')
    if disagreement is None:
        return True
    at, want, have = disagreement
    print(f'first disagreement: output line {at}')
    if want is not None:
        print(f'  reference: {want[0]} (for input line {want[1]})')
    print(f'  file:      {have}')
    return False


# Self-test

class Checks:
    """Counts checks; the first that fails ends the program."""

    def __init__(self):
        self.passed = 0

    def that(self, holds, message, *details):
        if not holds:
            print('FAILED:', message, *details)
            sys.exit(1)
        self.passed += 1


def meets(rows, point):
    """Does the point meet every row?"""
    for coefficients, constant, modulus in rows:
        difference = sum(c * x for c, x in zip(coefficients, point)) - constant
        if difference % modulus != 0 if modulus else difference != 0:
            return False
    return True


def refutes(n, rows, q, numerators):
    """The paper's definition of a refutation, from the rows alone."""
    if not 1 <= q <= 1_000_000 or len(numerators) != len(rows):
        return False
    if any(not -1_000_000 <= p <= 1_000_000 for p in numerators):
        return False
    pairs = list(zip(numerators, rows))
    if any(sum(p * row[0][j] for p, row in pairs) % q for j in range(n)):
        return False
    if any(p * row[2] % q for p, row in pairs if row[2] > 0):
        return False
    return sum(p * row[1] for p, row in pairs) % q != 0


def start_upper(n, rows):
    """The upper table before any step, made again from the rows."""
    congruences = [i for i, row in enumerate(rows) if row[2] > 0]
    return [list(row[0]) + [row[2] if i == k else 0 for k in congruences]
            for i, row in enumerate(rows)]


def check_table(checks, n, rows, cells, problem):
    """Upper = start-upper x lower; what is unused is 0; all within 2^28."""
    upper = start_upper(n, rows)
    m, used = len(rows), len(upper[0])
    table = [cells[at:at + 24] for at in range(0, 864, 24)]
    checks.that(len(cells) == 864, 'table has not 864 cells', problem)
    checks.that(all(abs(cell) <= 2 ** 28 for cell in cells),
                'cell above 2^28', problem)
    checks.that(all(table[i][j] == sum(upper[i][k] * table[12 + k][j]
                                       for k in range(used))
                    for i in range(m) for j in range(used)),
                'upper table is not start-upper times lower', problem)
    checks.that(not any(table[i][j] for i in range(36) for j in range(24)
                        if j >= used or m <= i < 12 or i >= 12 + used),
                'an unused cell is not 0', problem)


def random_problem(source):
    """Small problems mostly; some reach the ranges, some have a planted point
    so that they are solvable, some have 12 rows or variables."""
    kind = source.random()
    most = 12 if kind > 0.97 else 4
    n, m = source.randint(1, most), source.randint(1, most)
    ma = source.randint(0, m)
    size = source.choice([1, 2, 3, 5, 9, 30])
    if source.random() < 0.12:
        size = source.choice([1000, 40_000, 1_000_000])
    planted = None
    if source.random() < 0.4:
        planted = [source.randint(-4, 4) for _ in range(n)]
    numbers = []
    for _ in range(m):
        coefficients = [source.randint(-size, size)
                        if source.random() < 0.75 else 0 for _ in range(n)]
        modulus = source.randint(1, size + 1) if source.random() < 0.4 else 0
        modulus = min(modulus, 1_000_000)
        constant = source.randint(-size, size)
        if planted is not None:
            value = sum(c * x for c, x in zip(coefficients, planted))
            if abs(value) <= 1_000_000:
                constant = value
        numbers += coefficients + [constant, modulus]
    cut = ma * (n + 2)
    return n, ma, m - ma, numbers[:cut], numbers[cut:]


def check_problem(checks, source, problem):
    """All that the paper promises of one problem; returns its outcome."""
    n, ma, mb, a, b = problem
    m = ma + mb
    rows = [(numbers[:n], numbers[n], numbers[n + 1])
            for side in (a, b)
            for numbers in (side[at:at + n + 2]
                            for at in range(0, len(side), n + 2))]
    final = search(*problem, LARGEST_BUDGET, m, n)
    outcome, steps, q, numerators, point = final
    checks.that(1 <= steps <= MOST_STEPS, 'step count', problem, steps)
    checks.that(search(*problem, 0, m, n)
                == ('unfinished', 0, None, None, None), 'budget 0', problem)

    # Budgets: unfinished exactly below the final count.
    below = range(1, steps)
    if steps > 25:
        below = source.sample(below, 5) + [1, steps - 1]
    for budget in below:
        checks.that(search(*problem, budget, m, n)
                    == ('unfinished', budget, None, None, None),
                    'not unfinished below the final count', problem, budget)
    for budget in (steps, steps + 1, steps + source.randint(2, 9999)):
        checks.that(search(*problem, budget, m, n) == final,
                    'a larger budget disagrees', problem, budget)

    # What the answer says.
    if outcome == 'refuted':
        checks.that(point is None and refutes(n, rows, q, numerators),
                    'the vector does not refute', problem, final)
        if n <= 4:
            reach = (20, 6, 3, 1)[n - 1]
            box = itertools.product(range(-reach, reach + 1), repeat=n)
            checks.that(not any(meets(rows, x) for x in box),
                        'refuted, but a point exists', problem, final)
    elif outcome == 'solved':
        checks.that(q is None and numerators is None and len(point) == n
                    and meets(rows, point),
                    'the point does not meet every row', problem, final)
        checks.that(all(abs(x) <= 2 ** 28 for x in point),
                    'place above 2^28', problem, final)
    else:
        checks.that(outcome == 'too large' and (q, numerators, point)
                    == (None, None, None), 'outcome', problem, final)

    # Tables: at the start, somewhere between, before and after the last step.
    last = table_after(*problem, steps)
    before = table_after(*problem, steps - 1)
    for cells in (table_after(*problem, 0), before, last,
                  table_after(*problem, source.randint(0, steps))):
        check_table(checks, n, rows, cells, problem)
    checks.that(table_after(*problem, LARGEST_BUDGET) == last,
                'table changes after the last step', problem)
    if outcome == 'too large':
        checks.that(last == before, 'a too large step wrote', problem)
    return outcome


def check_named(checks):
    """Cases 8 and 9 of the paper, cases worked by hand, frames, refusals."""
    case_8 = (3, 1, 1, [1, -2, 0, 0, 0], [1, 0, -2, 1, 0])
    for budget in (0, 1, 2, 3):
        checks.that(search(*case_8, budget, 2, 3)
                    == ('unfinished', budget, None, None, None), 'case 8')
    for budget in (4, 5, 8076, 4294967295):
        checks.that(search(*case_8, budget, 2, 3)
                    == ('refuted', 4, 2, [-1, 1], None), 'case 8')
    case_9 = (2, 1, 1, [1, 0, 1000000, 0], [-1000000, 1, 0, 0])
    checks.that(search(*case_9, 1, 2, 2)
                == ('unfinished', 1, None, None, None), 'case 9')
    for budget in (2, 3, 8076, 4294967295):
        checks.that(search(*case_9, budget, 2, 2)
                    == ('too large', 2, None, None, None), 'case 9')

    # Worked out by hand from the paper's steps: the vector's limits, its
    # multiplication, and q for a row without pivot.
    by_hand = [
        ((1, 1, 1, [1, 0, 0], [1, 1, 0]), ('refuted', 2, 2, [-1, 1], None)),
        ((1, 1, 1, [1, 0, 0], [1, 6, 0]), ('refuted', 2, 4, [-1, 1], None)),
        ((1, 1, 1, [4, 4, 0], [2, 3, 0]), ('refuted', 2, 3, [-1, 2], None)),
        ((2, 2, 0, [2, 0, 2, 0, 1, 500000, 2, 0], []),
         ('refuted', 2, 1000000, [-1, 2], None)),
        ((2, 2, 0, [2, 0, 2, 0, 1, 500001, 2, 0], []),
         ('too large', 2, None, None, None)),
        ((3, 2, 1, [2, 0, 0, 2, 0, 1, 1, 0, 1, 0], [1, 500000, 7, 2, 0]),
         ('refuted', 3, 14, [499999, -1000000, 2], None)),
        ((3, 2, 1, [2, 0, 0, 2, 0, 1, 1, 0, 1, 0], [1, 500002, 7, 2, 0]),
         ('too large', 3, None, None, None)),
        ((2, 2, 0, [1, -100, 0, 0, 100000, 1, 1, 0], []),
         ('too large', 3, None, None, None)),
        ((2, 1, 2, case_9[3], case_9[4] + [0, 0, 0, 0]),
         ('too large', 2, None, None, None)),
    ]
    for problem, answer in by_hand:
        checks.that(search(*problem, 9, problem[1] + problem[2], problem[0])
                    == answer, 'worked by hand', problem, answer)

    # A tie, the first other column, a quotient cut towards zero, a negation:
    # -7x + 3y - 3z = 5, table rows 1 and 13 to 15 after each step.
    tie = (3, 1, 0, [-7, 3, -3, 5, 0], [])
    for budget, tops in enumerate([
            [[-7, 3, -3], [1, 0, 0], [0, 1, 0], [0, 0, 1]],
            [[-1, 3, -3], [1, 0, 0], [2, 1, 0], [0, 0, 1]],
            [[-1, 0, -3], [1, 3, 0], [2, 7, 0], [0, 0, 1]],
            [[-1, 0, 0], [1, 3, -3], [2, 7, -6], [0, 0, 1]],
            [[1, 0, 0], [-1, 3, -3], [-2, 7, -6], [0, 0, 1]]]):
        cells = table_after(*tie, budget)
        checks.that([cells[24 * i:24 * i + 3] for i in (0, 12, 13, 14)]
                    == tops, 'table worked by hand', budget)
    checks.that(search(*tie, 4, 1, 3) == ('solved', 4, None, None, [-5, -10, 0]),
                'point worked by hand')

    checks.that(
        answer_line(b'010301010000000400000001fffffffe00000000000000000000'
                    b'00000000000100000000fffffffe0000000100000000')
        == '02000000040200000002ffffffff00000001', 'frame example')

    row = [1, 0, 5, 0]
    refused = [
        (1, (0, 1, 0, [5, 0], [], 9, 1, 0)),
        (1, (13, 1, 0, [0] * 15, [], 9, 1, 13)),
        (1, (2, 0, 0, [], [], 9, 0, 2)),
        (1, (2, 7, 6, row * 7, row * 6, 9, 13, 2)),
        (1, (2, -1, 2, [], row * 2, 9, 1, 2)),
        (1, (2, 1, 1, row, row[:3], 9, 2, 2)),
        (1, (2, 1, 1, row[:3], row + [0], 9, 3, 3)),
        (2, (2, 1, 1, row, row, 9, 1, 2)),
        (2, (2, 1, 1, row, row, 9, 2, 3)),
        (2, (2, 1, 0, [1000001, 0, 0, 0], [], 9, 2, 2)),
        (3, (2, 1, 0, [1000001, 0, 0, 0], [], 9, 1, 2)),
        (3, (2, 0, 1, [], [0, 0, -1000001, 0], 9, 1, 2)),
        (3, (2, 0, 1, [], [0, 0, 0, -1], 0, 1, 2)),
        (3, (2, 0, 1, [], [0, 0, 0, 1000001], 9, 1, 2)),
    ]
    for number, call in refused:
        checks.that(search(*call) == ('refused', number), 'refusal', call)
    for line in (b'', b'0', b'01010100000001', b'02' + b'00' * 7,
                 b'01' + b'0A' * 7, b'01' * 681, b'01010100 0000001'):
        checks.that(answer_line(line) == '060900000000', 'refusal 9', line)
    checks.that(answer_line(b'0101010000000001') == '060100000000',
                'refusal 1 as a frame')


def self_test():
    checks = Checks()
    check_named(checks)
    source = random.Random(20240607)
    outcomes = {'refuted': 0, 'solved': 0, 'too large': 0}
    for _ in range(PROBLEMS):
        outcomes[check_problem(checks, source, random_problem(source))] += 1
    for outcome, count in outcomes.items():
        checks.that(count >= 20, 'outcome hardly met:', outcome, count)
    print(f'{checks.passed} checks passed')


if __name__ == '__main__':
    if len(sys.argv) == 3:
        sys.exit(0 if compare(sys.argv[1], sys.argv[2]) else 1)
    if len(sys.argv) != 1:
        sys.exit('usage: search_reference.py [IN OUT]')
    self_test()
