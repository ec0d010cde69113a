/* Makes the library's calls for another program: one a line of standard input, its name and then its arguments,
 *
 *     judge    PROBLEM Q P COEFFS
 *     search   PROBLEM BUDGET VECTOR POINT
 *     table    PROBLEM BUDGET CELLS
 *     respond  LINE OUT
 *     touch    RUN PLACE
 *
 * where PROBLEM is n, ma, mb, A, B. A run that is read is its length and its numbers, for LINE its bytes in hexadecimal; a run that is
 * written is its length alone, and holds UNWRITTEN or question marks before the call.
 *
 * Every call is made twice: with each run right before memory that may not be touched, and then right after it. Each time one line on
 * standard output has the numbers of the answer and then, in brackets, what every run holds after the call, in the order of the
 * arguments. A crash, as by a read or a write outside a run, and a call that has not returned after SECONDS end the program with one line
 * on standard error.
 *
 * `touch` is no call of the library: it reads a number at any place of a run, by which it can be seen that runs are guarded. */
#include "edge.h"

#include <ctype.h>
#include <inttypes.h>
#include <signal.h>
#include <unistd.h>

#include "vayalittu.h"

#define SECONDS 60

/* ---- The arguments */

static char *rest; /* what is still to be read of the line in hand */

static void malformed(const char *why)
{
    fprintf(stderr, "%s: %s\n", why, rest);
    exit(2);
}

static uint64_t count(void)
{
    char *end;
    uint64_t number = strtoull(rest, &end, 10);
    if (end == rest)
        malformed("no number");
    rest = end;
    return number;
}

/* A minus is read too, and negates as an unsigned number is negated. */
static int64_t number(void)
{
    return (int64_t)count();
}

typedef struct {
    int64_t *numbers;
    size_t length;
} run;

static run written_run(void)
{
    run r = {NULL, count()};
    r.numbers = unwritten(r.length);
    return r;
}

static run read_run(void)
{
    run r = written_run();
    for (size_t i = 0; i < r.length; i++)
        r.numbers[i] = number();
    return r;
}

typedef struct {
    size_t n, ma, mb;
    run a, b;
} problem;

static problem read_problem(void)
{
    problem p;
    p.n = count();
    p.ma = count();
    p.mb = count();
    p.a = read_run();
    p.b = read_run();
    return p;
}

#define RUN(r) (r).numbers, (r).length
#define PROBLEM(p) (p).n, (p).ma, (p).mb, RUN((p).a), RUN((p).b)

typedef struct {
    uint8_t *bytes;
    size_t length;
} byte_run;

static byte_run read_bytes(void)
{
    byte_run r = {NULL, count()};
    r.bytes = edge(NULL, r.length);
    rest += *rest == ' ';
    for (size_t i = 0; i < r.length; i++, rest += 2) {
        if (!isxdigit((unsigned char)rest[0]) || !isxdigit((unsigned char)rest[1]))
            malformed("no byte");
        r.bytes[i] = (uint8_t)strtoul((char[]){rest[0], rest[1], 0}, NULL, 16);
    }
    return r;
}

static byte_run written_bytes(void)
{
    byte_run r = {NULL, count()};
    r.bytes = edge(NULL, r.length);
    memset(r.bytes, '?', r.length);
    return r;
}

/* ---- The answers */

static void show(run r)
{
    printf(" [");
    for (size_t i = 0; i < r.length; i++) {
        int64_t number = r.numbers[i];
        if (i > 0)
            putchar(' ');
        /* most numbers are cells of a table, and printf is slow under an emulator */
        if (0 <= number && number <= 9)
            putchar('0' + (int)number);
        else
            printf("%" PRId64, number);
    }
    printf("]");
}

static void show_problem(problem p)
{
    show(p.a);
    show(p.b);
}

static void show_bytes(byte_run r)
{
    printf(" [");
    for (size_t i = 0; i < r.length; i++)
        printf("%02x", r.bytes[i]);
    printf("]");
}

/* ---- The calls */

static void judge(void)
{
    problem p = read_problem();
    int64_t q = number();
    run v = read_run(), coeffs = written_run();
    vayalittu_fact fact = vayalittu_judge(PROBLEM(p), q, RUN(v), RUN(coeffs));
    printf("%" PRIu32 " %" PRId64 " %" PRId64, fact.refusal, fact.constant, fact.modulus);
    show_problem(p);
    show(v);
    show(coeffs);
}

static void search(void)
{
    problem p = read_problem();
    uint32_t budget = (uint32_t)count();
    run vector = written_run(), point = written_run();
    vayalittu_answer answer = vayalittu_search(PROBLEM(p), budget, RUN(vector), RUN(point));
    printf("%" PRIu32 " %" PRIu32 " %" PRIu32 " %" PRId64, answer.refusal, answer.outcome, answer.steps, answer.q);
    show_problem(p);
    show(vector);
    show(point);
}

static void table(void)
{
    problem p = read_problem();
    uint32_t budget = (uint32_t)count();
    run cells = written_run();
    printf("%" PRIu32, vayalittu_table(PROBLEM(p), budget, RUN(cells)));
    show_problem(p);
    show(cells);
}

static void respond(void)
{
    byte_run line = read_bytes(), out = written_bytes();
    printf("%zu", vayalittu_respond(line.bytes, line.length, out.bytes, out.length));
    show_bytes(line);
    show_bytes(out);
}

static void touch(void)
{
    run r = read_run();
    const volatile int64_t *numbers = r.numbers;
    printf("%" PRId64, numbers[number()]);
    show(r);
}

/* ---- A line after the other */

static const struct {
    int signal;
    const char *name;
} crashes[] = {{SIGSEGV, "SIGSEGV\n"}, {SIGBUS, "SIGBUS\n"},   {SIGFPE, "SIGFPE\n"},
               {SIGILL, "SIGILL\n"},   {SIGABRT, "SIGABRT\n"}, {SIGALRM, "no return\n"}};

#define CRASHES (sizeof crashes / sizeof *crashes)

static void crashed(int signal)
{
    for (size_t i = 0; i < CRASHES; i++)
        if (crashes[i].signal == signal)
            (void)!write(2, crashes[i].name, strlen(crashes[i].name));
    _exit(1);
}

/* Crashes end the program by `crashed`, on a stack of its own, since the library's may be used up. */
static void catch_crashes(void)
{
    static char stack[ROOM];
    struct sigaction action = {.sa_handler = crashed, .sa_flags = SA_ONSTACK};
    if (sigaltstack(&(stack_t){.ss_sp = stack, .ss_size = sizeof stack}, NULL) != 0)
        exit(2);
    for (size_t i = 0; i < CRASHES; i++)
        sigaction(crashes[i].signal, &action, NULL);
}

static const struct {
    const char *name;
    void (*make)(void);
} calls[] = {{"judge", judge}, {"search", search}, {"table", table}, {"respond", respond}, {"touch", touch}};

static void make_call(char *line)
{
    size_t length = strcspn(line, " ");
    rest = line;
    for (size_t i = 0; i < sizeof calls / sizeof *calls; i++)
        if (strlen(calls[i].name) == length && strncmp(calls[i].name, line, length) == 0) {
            rest += length;
            alarm(SECONDS);
            calls[i].make();
            alarm(0);
            if (*rest != 0)
                malformed("more than the call's arguments");
            return;
        }
    malformed("no call");
}

int main(void)
{
    char *line = NULL;
    size_t room = 0;
    catch_crashes();
    while (getline(&line, &room, stdin) > 0) {
        line[strcspn(line, "\n")] = 0;
        for (at_the_end = 1; at_the_end >= 0; at_the_end--) {
            make_call(line);
            putchar('\n');
            used = 0;
        }
        fflush(stdout);
    }
    free(line);
    return 0;
}
