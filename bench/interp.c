/* The program interp, text in and text out: problem lines from a file, answer lines into a file. Starting the program is included. */
#define _POSIX_C_SOURCE 200809L
#include "driver.h"

#include <fcntl.h>
#include <inttypes.h>
#include <sys/wait.h>
#include <unistd.h>

#define PROGRAM "target/bin/interp"
#define LINES "target/bench/lines"
#define ANSWERS "target/bench/answers"
#define REPEATS 100

static void write_lines(void)
{
    FILE *file = fopen(LINES, "w");
    for (int i = 0; i < REPEATS; i++)
        for (size_t k = 0; k < DISTINCT; k++) {
            const problem *p = &problems[k];
            fprintf(file, "01%02zx%02zx%02zx%08x", p->n, p->ma, p->mb, 8076u);
            for (size_t r = 0; r < p->ma + p->mb; r++)
                for (size_t j = 0; j < p->n + 2; j++)
                    fprintf(file, "%08" PRIx32, (uint32_t)row_of(p, r)[j]);
            fputc('\n', file);
        }
    fclose(file);
}

static void run_program(void)
{
    pid_t child = fork();
    int status;
    if (child == 0) {
        if (dup2(open(LINES, O_RDONLY), 0) < 0 || dup2(open(ANSWERS, O_WRONLY | O_CREAT | O_TRUNC, 0644), 1) < 0)
            _exit(2);
        execl(PROGRAM, "interp", (char *)NULL);
        _exit(2);
    }
    if (waitpid(child, &status, 0) != child || status != 0) {
        fprintf(stderr, "interp failed\n");
        exit(1);
    }
}

/* A digit for each of the first problems, as in driver.h; a fact's line follows its refutation. */
static void read_answers(char *answers)
{
    char line[512];
    FILE *file = fopen(ANSWERS, "r");
    size_t k = 0;
    while (k < DISTINCT && fgets(line, sizeof line, file) != NULL)
        if (line[1] != '5')
            answers[k++] = line[1] == '2' ? '0' : line[1] == '3' ? '1' : '2';
    fclose(file);
}

int main(void)
{
    for (size_t f = 0; f < 2; f++) {
        char answers[DISTINCT + 1] = {0};
        double best = 1e9;
        make_problems(&families[f]);
        write_lines();
        for (int round = 0; round < ROUNDS; round++) {
            double start = seconds(), spent;
            run_program();
            spent = seconds() - start;
            if (spent < best)
                best = spent;
        }
        read_answers(answers);
        printf("interp %s %.4f %s\n", families[f].name, best / (double)(REPEATS * DISTINCT) * 1e6, answers);
    }
    return 0;
}
