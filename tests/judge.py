"""The judge: holds the compiled library and the program `interp` against what the paper asks, on seeded random problems.

    python3 tests/judge.py calls [SEED [COUNT]]      the library's calls, on any numbers and lengths; 2,000 problems
    python3 tests/judge.py lines [SEED [COUNT]]      text lines, whole and damaged, through `interp` and the library; 20,000 lines
    python3 tests/judge.py pari [SEED [COUNT]]       the library's verdicts beside PARI's; 5,000 problems
    python3 tests/judge.py stored IN OUT             stored lines and their stored answers, without any program
    python3 tests/judge.py vectors FILE              stored vectors and their stored answers, through the library

It calls the library through tests/c/calls.c, which it compiles, and uses the `interp` and the static library that are built, or has them
built. A disagreement is shown with its call or its line, and a crash of the library is one; the judge goes on after it, and ends
with a nonzero status. The status is 77 where a tool is missing, which is then named.

Four judges must agree with the answers, the last in the mode `pari` alone:
  - the paper's steps, one by one (search_reference.py), and the paper's rules for a vector (reference.py): answers, step counts,
    vectors, points, facts, refusals, what every lent run then holds, and the table after every number of steps;
  - a Hermite normal form over unbounded integers (`Solutions`), which knows nothing of those steps: whether a point exists;
  - the definitions themselves: a vector refutes, a point meets its rows, a fact holds at sampled points of A and at none of B;
  - PARI's `matsolvemod`, of which the project has not a line: whether a point exists.
"""

import json
import os
import random
import subprocess
import sys

import reference
import search_reference

ROOT = os.path.dirname(os.path.dirname(os.path.abspath(__file__)))
OUTCOMES = {1: 'refuted', 2: 'solved', 3: 'too large', 4: 'unfinished'}
UNWRITTEN = -77                # what a lent run of numbers holds before a call, as in c/edge.h
ANSWER_MAX = 346               # the longest answer to a line
ALL_TABLES = 60                # up to so many steps, the table after each number of them is compared
MOST_DISAGREEMENTS = 20        # after so many, the judge gives up


# Disagreements

class Disagreement(Exception):
    pass


def agree(found, expected, what, *call):
    if found != expected:
        raise Disagreement(f'{what}\n  call:     {call}\n  found:    {found}\n  expected: {expected}')


class Report:
    """Shows disagreements and counts them."""

    def __init__(self):
        self.count = 0

    def judged(self, judge, *given):
        """What a judge returns; None where it disagrees."""
        try:
            return judge(*given)
        except Disagreement as disagreement:
            print(f'disagreement: {disagreement}', file=sys.stderr)
            self.count += 1
            if self.count == MOST_DISAGREEMENTS:
                sys.exit(f'{self.count} disagreements: given up')


# The library

def of_repository(*path):
    return os.path.join(ROOT, *path)


def needed(*command):
    """What a command of the repository writes. A tool that it misses, and names, is missing here, too."""
    ended = subprocess.run(command, stdout=subprocess.PIPE, text=True)
    if ended.returncode != 0:
        sys.exit(ended.returncode)
    return ended.stdout.strip()


def lent(run):
    """A run that is read, as an argument of a call."""
    return ' '.join(map(str, [len(run), *run]))


def held(*runs):
    """What runs hold, as an answer shows it."""
    return ' '.join('[' + ' '.join(map(str, run)) + ']' for run in runs)


class Library:
    """The compiled library. The program calls.c makes its calls; what it reads and writes is told there."""

    def __init__(self):
        needed(of_repository('tests', 'c', 'build'), 'tests/c/calls.c')
        self.start()
        self.see_guards()

    def start(self):
        program = [of_repository('machine', 'run'), of_repository('target', 'c', 'calls')]
        self.program = subprocess.Popen(program, stdin=subprocess.PIPE, stdout=subprocess.PIPE, stderr=subprocess.PIPE, text=True)

    def answers(self, call):
        """The answers to a call, with the runs right before memory that may not be touched, and right after it."""
        try:
            self.program.stdin.write(call + '\n')
            self.program.stdin.flush()
        except BrokenPipeError:
            pass
        lines = [self.program.stdout.readline() for _ in range(2)]
        if not all(line.endswith('\n') for line in lines):
            _, said = self.program.communicate()
            status = self.program.returncode
            self.start()
            raise Disagreement(f'{said.strip() or status} in the call: {call}')
        return [line[:-1] for line in lines]

    def see_guards(self):
        """A run can be read, but not right before it or right after it."""
        agree(self.answers('touch 3 1 2 3 2'), ['3 [1 2 3]'] * 2, 'a read of a run')
        for place in (-1, 3):
            try:
                found = self.answers(f'touch 3 1 2 3 {place}')
            except Disagreement as crash:
                found = str(crash).split()[0]
            agree(found, 'SIGSEGV', f'a read at place {place} of a run of 3')

    def expect(self, answer, *words):
        """Makes a call, and sees that it is answered so."""
        call = ' '.join(map(str, words))
        for found in self.answers(call):
            agree(found, answer, words[0], call)


def problem_words(n, ma, mb, a, b):
    return f'{n} {ma} {mb} {lent(a)} {lent(b)}'


# All solutions of a system, by a Hermite normal form

class Solutions:
    """The integer points that meet all rows: one of them, and vectors whose integer combinations lead to all others.

    A congruence gets a variable of its own, which its modulus multiplies. Columns are combined until every row has one nonzero
    entry after the pivots before it; then a row fixes the coordinate of its pivot, or there is no point.
    """

    def __init__(self, n, rows):
        self.n = n
        own = [i for i, (_, _, l) in enumerate(rows) if l != 0]
        width = n + len(own)
        columns = []
        for j in range(width):
            entries = [(c[j] if j < n else (l if own[j - n] == i else 0)) for i, (c, _, l) in enumerate(rows)]
            columns.append((entries, [int(k == j) for k in range(width)]))
        self.point, done = [0] * width, 0
        self.exists = True
        for i, (_, d, _) in enumerate(rows):
            done, pivot = self.reduce(columns, i, done)
            rest = d - self.value(rows, own, i)
            if pivot is None:
                if rest != 0:
                    self.exists = False
                    return
                continue
            entries, combination = pivot
            if rest % entries[i] != 0:
                self.exists = False
                return
            self.point = [x + rest // entries[i] * y for x, y in zip(self.point, combination)]
        self.free = [combination for _, combination in columns[done:]]

    def value(self, rows, own, i):
        c, _, l = rows[i]
        return sum(c[j] * self.point[j] for j in range(self.n)) + (l * self.point[self.n + own.index(i)] if l != 0 else 0)

    @staticmethod
    def reduce(columns, i, done):
        """Brings the gcd of a row's entries from column `done` on into that column, by subtracting columns from columns."""
        while True:
            nonzero = [k for k in range(done, len(columns)) if columns[k][0][i] != 0]
            if not nonzero:
                return done, None
            least = min(nonzero, key=lambda k: abs(columns[k][0][i]))
            columns[done], columns[least] = columns[least], columns[done]
            if len(nonzero) == 1:
                return done + 1, columns[done]
            for k in range(done + 1, len(columns)):
                factor = columns[k][0][i] // columns[done][0][i]
                if factor != 0:
                    columns[k] = tuple([x - factor * y for x, y in zip(mine, pivot)] for mine, pivot in zip(columns[k], columns[done]))

    def sample(self, source):
        point = self.point
        for vector in self.free:
            factor = source.choice([0, 1, -1, 2, source.randint(-50, 50)])
            point = [x + factor * y for x, y in zip(point, vector)]
        return point[:self.n]


# Problems

def loop_trace(source):
    """A counter that a loop changes: each row ties a variable to the one before; some steps are known modulo a number only."""
    n = source.choice([3, 6, 12])
    rows = []
    for i in range(n):
        c = [0] * n
        c[i] = 1
        if i > 0:
            c[i - 1] = -1
        rows += c + [source.randint(0, 7), source.choice([0, 0, 0, 4, 8])]
    rows[n + 1] = source.randint(2, 9)
    rows[-2:] = [source.randint(0, 5), source.randint(2, 9)]
    rows[-n - 2:-2] = [0] * (n - 2) + [1, 0]
    cut = source.randint(0, n) * (n + 2)
    return n, cut // (n + 2), n - cut // (n + 2), rows[:cut], rows[cut:]


def edge_problem(source):
    """Numbers at the ends of the ranges, and the longest searches."""
    n, m = source.randint(1, 12), source.randint(1, 12)
    ma = source.randint(0, m)
    ends = [0, 1, -1, 999_999, -999_999, 1_000_000, -1_000_000, 832_040, 514_229]
    numbers = []
    for i in range(m):
        c = [0] * n
        for _ in range(source.randint(0, 2)):
            c[source.randrange(n)] = source.choice(ends)
        if source.random() < 0.4:
            c = [832_040 * int(j == i) for j in range(n)]
        numbers += c + [source.choice(ends), abs(source.choice(ends))]
    cut = ma * (n + 2)
    return n, ma, m - ma, numbers[:cut], numbers[cut:]


def seeming_problem(source):
    """Congruences, in B above all, with coefficients that their modulus divides: variables that only seem to occur."""
    n, ma, mb = source.randint(2, 4), source.randint(1, 2), source.randint(1, 2)
    numbers = []
    for i in range(ma + mb):
        l = source.choice([1, 2, 3, 4, 6, 8]) if source.random() < (0.2 if i < ma else 0.8) else 0
        c = [source.randint(-4, 4) * source.choice([1, l or 1]) for _ in range(n)]
        numbers += c + [source.randint(-4, 4), l]
    cut = ma * (n + 2)
    return n, ma, mb, numbers[:cut], numbers[cut:]


def damaged(source, problem):
    """A call that something is wrong with, or not."""
    n, ma, mb, a, b = problem
    hostile = [0, 1, 11, 12, 13, 2 ** 32, 2 ** 63, 2 ** 64 - 1]
    kind = source.randrange(6)
    if kind == 0:
        n = source.choice(hostile)
    elif kind == 1:
        ma = source.choice(hostile)
    elif kind == 2:
        mb = source.choice(hostile)
    elif kind == 3:
        a = a[:-1] if source.random() < 0.5 else a + [0]
    elif kind == 4:
        b = b[:-1] if source.random() < 0.5 else b + [0]
    else:
        side = source.choice([a, b])
        if side:
            changed = source.choice([1_000_001, -1_000_001, 2 ** 63 - 1, -2 ** 63, -1])
            at = source.randrange(len(side))
            other = side[:at] + [changed] + side[at + 1:]
            a, b = (other, b) if side is a else (a, other)
    return n, ma, mb, a, b


def random_problem(source):
    kind = source.random()
    if kind < 0.2:
        return loop_trace(source)
    if kind < 0.3:
        return edge_problem(source)
    if kind < 0.45:
        return seeming_problem(source)
    return search_reference.random_problem(source)


# Judging

def judge_search(library, call, budget, vector_length, point_length):
    """The answer and both runs, against the paper's steps. Returns the reference's answer."""
    *_, a, b = call
    vector, point = [UNWRITTEN] * vector_length, [UNWRITTEN] * point_length
    answer = search_reference.search(*call, budget, vector_length, point_length)
    if answer[0] == 'refused':
        expected = f'{answer[1]} 0 0 0'
    else:
        outcome, steps, q, numerators, place = answer
        number = {name: number for number, name in OUTCOMES.items()}[outcome]
        expected = f'{8 if outcome == "too large" else 0} {number} {steps} {q or 0}'
        vector, point = numerators or vector, place or point
    library.expect(f'{expected} {held(a, b, vector, point)}', 'search', problem_words(*call), budget, vector_length, point_length)
    return answer


def judge_table(library, call, budget, length=864):
    *_, a, b = call
    refusal = search_reference.refusal(*call)
    if refusal != 1 and length != 864:
        refusal = 2
    cells = [UNWRITTEN] * length if refusal else search_reference.table_after(*call, budget)
    library.expect(f'{refusal or 0} {held(a, b, cells)}', 'table', problem_words(*call), budget, length)


def expect_judged(library, call, q, p, length, answer):
    """A vector is answered so by the library, with a refusal or with a fact."""
    *_, a, b = call
    refusal, fact = (answer, ([UNWRITTEN] * length, 0, 0)) if isinstance(answer, int) else (0, answer)
    coefficients, constant, modulus = fact
    library.expect(f'{refusal} {constant} {modulus} {held(a, b, p, coefficients)}', 'judge', problem_words(*call), q, lent(p), length)


def judge_vector(library, call, q, p, length):
    """The refusal, or the interpolant, against the paper's rules."""
    expect_judged(library, call, q, p, length, reference.judge(*call, q, p, length))


def judge_fact(source, call, fact):
    """The fact separates sampled points of A from sampled points of B."""
    n, ma, mb, a, b = call
    coefficients, constant, modulus = fact
    for side, holds in ((a, True), (b, False)):
        solutions = Solutions(n, reference.rows_of(n, side))
        for _ in range(4 if solutions.exists else 0):
            point = solutions.sample(source)
            agree(reference.meets(n, coefficients + [constant, modulus], point), holds, 'the fact at a point of a side', *call, fact, point)


def judge_answer(source, call, answer):
    """A finished answer is true, by a judge that knows nothing of the steps."""
    n, ma, mb, a, b = call
    outcome, _, q, numerators, point = answer
    exists = Solutions(n, reference.rows_of(n, a + b)).exists
    if outcome == 'refuted':
        agree(exists, False, 'refuted, but a point exists', *call)
        fact = reference.judge(*call, q, numerators, n)
        agree(isinstance(fact, int), False, 'the vector of a search is accepted', *call)
        judge_fact(source, call, fact)
    if outcome == 'solved':
        agree(exists, True, 'solved, but no point exists', *call)
        agree(reference.meets(n, a + b, point), True, 'the point meets all rows', *call, point)


def judge_problem(library, source):
    """One problem: every call on it, and damaged calls. Returns its outcome."""
    call = random_problem(source)
    n, ma, mb, _, _ = call
    m = ma + mb
    answer = judge_search(library, call, search_reference.LARGEST_BUDGET, m, n)
    steps = answer[1]
    judge_answer(source, call, answer)
    if answer[0] == 'refuted':
        judge_vector(library, call, answer[2], answer[3], n)
    for budget in {0, 1, steps - 1, steps, steps + 1, source.randint(0, steps + 5)}:
        judge_search(library, call, budget, m, n)
    budgets = range(steps + 2) if steps <= ALL_TABLES else source.sample(range(steps + 2), 20)
    for budget in budgets:
        judge_table(library, call, budget)
    judge_search(library, call, steps, m + source.choice([-1, 0, 1]), n + source.choice([-1, 0, 1]))
    judge_table(library, call, steps, source.choice([0, 863, 865]))
    q, p = source.choice([0, 1, 2, 3, 8, 1_000_000, 1_000_001, -2 ** 63]), [source.randint(-4, 4) for _ in range(m)]
    judge_vector(library, call, q, p, n)
    if source.random() < 0.2:
        p = p + [0] if source.random() < 0.5 else [source.choice([1_000_000, 1_000_001, -2 ** 63])] + p[1:]
    judge_vector(library, call, q, p, n + source.choice([0, 0, 1, -1]))
    broken = damaged(source, call)
    judge_search(library, broken, source.choice([0, 5, 8076]), m, n)
    judge_table(library, broken, 3, source.choice([864, 864, 12]))
    judge_vector(library, broken, q, p, n + source.choice([0, 0, 1, -1]))
    return answer[0]


# Lines

def problem_line(call, budget):
    n, ma, mb, a, b = call
    counts = ''.join(search_reference.to_hex(x, 1) for x in (1, n, ma, mb))
    return (counts + search_reference.to_hex(budget, 4) + ''.join(search_reference.to_hex(x, 4) for x in a + b)).encode()


def damaged_line(source, line):
    """A line that something is wrong with, or not; never with a line end in it."""
    kind = source.randrange(9)
    at = source.randrange(len(line))
    if kind == 0:
        return line[:at]
    if kind == 1:
        return line + line[:at]
    if kind == 2:
        return line[:at] + bytes([source.choice([c for c in range(256) if c != 10])]) + line[at + 1:]
    if kind == 3:
        return line.upper()
    if kind == 4:
        return line[:at] + source.choice(b'0123456789abcdef').to_bytes(1, 'big') + line[at + 1:]
    if kind == 5:
        return b'0' * source.choice([0, 1, 15, 16, 1358, 1360, 1361, 1362, 5000])
    if kind == 6:
        return line[:2] + b'%02x%02x%02x' % tuple(source.choice([0, 1, 3, 11, 12, 13, 255]) for _ in range(3)) + line[8:]
    if kind == 7:
        return b'%02x' % source.choice([0, 2, 3, 6, 255]) + line[2:]
    return line + b'\r'


def interpolant_frame(n, fact):
    coefficients, constant, modulus = fact
    return '05' + search_reference.to_hex(n, 1) + ''.join(search_reference.to_hex(x, 8) for x in coefficients + [constant, modulus])


def expected_answer(source, line, call, budget):
    """The answer lines by the paper's steps and rules; for a problem that was not damaged, the other judges agree with it."""
    first = search_reference.answer_line(line)
    lines = [first]
    if call is not None:
        n, ma, mb, _, _ = call
        answer = search_reference.search(*call, budget, ma + mb, n)
        judge_answer(source, call, answer)
    if first.startswith('02'):
        frame = bytes.fromhex(line.decode())
        n, ma, mb = frame[1:4]
        numbers = [int.from_bytes(frame[at:at + 4], 'big', signed=True) for at in range(8, len(frame), 4)]
        found = bytes.fromhex(first)
        q = int.from_bytes(found[6:10], 'big', signed=True)
        p = [int.from_bytes(found[at:at + 4], 'big', signed=True) for at in range(10, len(found), 4)]
        cut = ma * (n + 2)
        lines.append(interpolant_frame(n, reference.judge(n, ma, mb, numbers[:cut], numbers[cut:], q, p, n)))
    return ''.join(text + '\n' for text in lines).encode()


def judge_line(library, source, room):
    """One line, through the library. Returns it with its answer."""
    call = random_problem(source)
    budget = source.choice([0, 1, 5, 20, 8076, 8076, 8076, 2 ** 32 - 1])
    line = problem_line(call, budget)
    if source.random() < 0.3:
        line, call = damaged_line(source, line), None
    answer = expected_answer(source, line, call, budget)
    written = answer + b'?' * (room - len(answer))
    library.expect(f'{len(answer)} [{line.hex()}] [{written.hex()}]', 'respond', len(line), line.hex(), room)
    unwritten = b'?' * (ANSWER_MAX - 1)
    library.expect(f'0 [{line.hex()}] [{unwritten.hex()}]', 'respond', len(line), line.hex(), ANSWER_MAX - 1)
    return line, answer


def judge_interp(answered):
    """Lines and their answers, through the program."""
    # a last line without its end counts if it has any character
    while answered and answered[-1][0] == b'':
        answered.pop()
    given = b'\n'.join(line for line, _ in answered)
    ended = subprocess.run([of_repository('run')], input=given, stdout=subprocess.PIPE)
    agree(ended.returncode, 0, 'the status of interp')
    found = ended.stdout
    for line, answer in answered:
        agree(found[:len(answer)], answer, 'interp', line)
        found = found[len(answer):]
    agree(found, b'', 'interp writes more than the answers')


def judge_stored(in_path, out_path):
    with open(out_path, 'rb') as file:
        found = file.read()
    lines = search_reference.read_lines(in_path)
    for line in lines:
        answer = expected_answer(None, line, None, None)
        agree(found[:len(answer)], answer, 'stored', line)
        found = found[len(answer):]
    agree(found, b'', 'more is stored than the answers')
    return f'{len(lines)} stored lines agree'


def judge_stored_vector(library, case):
    call = [case[name] for name in ('n', 'ma', 'mb', 'a', 'b')]
    q, p, length = case['q'], case['p'], case['coeffs_len']
    told = case['answer']
    answer = told['refusal'] or (told['coeffs'], told['constant'], told['modulus'])
    agree(reference.judge(*call, q, p, length), answer, 'the reference', *call, q, p, length)
    expect_judged(library, call, q, p, length, answer)


def judge_vectors(report, path):
    library = Library()
    with open(path) as file:
        cases = [json.loads(line) for line in file]
    for case in cases:
        report.judged(judge_stored_vector, library, case)
    return f'{len(cases)} stored vectors agree'


# PARI

# 1 if a point meets all rows, else 0: `matsolvemod` answers such a point, a vector, or else the number 0
PARI_EXISTS = 'exists(m,n,c,l,d)=type(matsolvemod(matrix(m,n,i,j,c[(i-1)*n+j]),l~,d~))!="t_INT";\n'


def pari_verdicts(gp, calls):
    """Whether a point exists, by PARI, for each problem."""
    given = PARI_EXISTS
    for n, _, _, a, b in calls:
        rows = reference.rows_of(n, a + b)
        coefficients, constants, moduli = [x for c, _, _ in rows for x in c], [d for _, d, _ in rows], [l for _, _, l in rows]
        given += f'print(exists({len(rows)},{n},{coefficients},{moduli},{constants}))\n'
    verdicts = subprocess.run([gp, '-q', '-f'], input=given, stdout=subprocess.PIPE, text=True).stdout.split()
    agree(len(verdicts), len(calls), 'PARI answers each problem')
    return [verdict == '1' for verdict in verdicts]


def decided(library, call):
    """Whether a point exists, by the library; None where it does not decide."""
    n, ma, mb, _, _ = call
    _, outcome, *_ = library.answers(f'search {problem_words(*call)} {search_reference.MOST_STEPS} {ma + mb} {n}')[0].split()
    return {'refuted': False, 'solved': True}.get(OUTCOMES.get(int(outcome)))


def random_decided(report, library, seed, count):
    """Random problems that the library decides, each with its verdict. Those without a nonzero coefficient are left out: PARI answers 0
    for them, whether or not a point exists."""
    problems = []
    for k in range(count):
        call = random_problem(random.Random(f'{seed} pari {k}'))
        n, _, _, a, b = call
        if any(any(c) for c, _, _ in reference.rows_of(n, a + b)):
            verdict = report.judged(decided, library, call)
            if verdict is not None:
                problems.append((call, verdict))
    return problems


# The modes

def judge_calls(report, seed, count):
    library, outcomes = Library(), {}
    for k in range(count):
        outcome = report.judged(judge_problem, library, random.Random(f'{seed} {k}'))
        outcomes[outcome] = outcomes.get(outcome, 0) + 1
    told = ', '.join(f'{name} {number}' for name, number in sorted(outcomes.items(), key=str))
    return f'{count} problems of seed {seed} agree: {told}'


def judge_lines(report, seed, count):
    library, rooms = Library(), [ANSWER_MAX, ANSWER_MAX + 1, 1000]
    answered = [report.judged(judge_line, library, random.Random(f'{seed} line {k}'), rooms[k % 3]) for k in range(count)]
    report.judged(judge_interp, [pair for pair in answered if pair is not None])
    return f'{count} lines of seed {seed} agree'


def judge_pari(report, seed, count):
    gp = needed(of_repository('machine', 'tools'), 'find', 'gp')
    problems = random_decided(report, Library(), seed, count)
    verdicts = report.judged(pari_verdicts, gp, [call for call, _ in problems]) or []
    for (call, found), verdict in zip(problems, verdicts):
        report.judged(agree, found, verdict, 'the verdict beside that of PARI', *call)
    solved = sum(verdict for _, verdict in problems)
    return f'{len(problems)} problems of seed {seed} agree with PARI: refuted {len(problems) - solved}, solved {solved}'


MODES = {'calls': (judge_calls, 2000), 'lines': (judge_lines, 20000), 'pari': (judge_pari, 5000)}


def main():
    mode, words = (sys.argv + [''])[1], sys.argv[2:]
    report = Report()
    if mode == 'stored' and len(words) == 2:
        told = report.judged(judge_stored, *words)
    elif mode == 'vectors' and len(words) == 1:
        told = report.judged(judge_vectors, report, *words)
    elif mode in MODES and len(words) <= 2:
        judge, count = MODES[mode]
        told = report.judged(judge, report, *[int(word) for word in words] + [1, count][len(words):])
    else:
        sys.exit(__doc__)
    if report.count > 0:
        sys.exit(f'{report.count} disagreements')
    print(told)


if __name__ == '__main__':
    main()
