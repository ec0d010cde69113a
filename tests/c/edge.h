/* Runs at the edge of their memory: each stands right before memory that may not be touched, or right after it, so that a read or a
 * write outside it ends the program. */
#ifndef EDGE_H
#define EDGE_H

#ifndef _DEFAULT_SOURCE
#define _DEFAULT_SOURCE
#endif
#include <stdint.h>
#include <stdio.h>
#include <stdlib.h>
#include <string.h>
#include <sys/mman.h>

#define ROOM 65536      /* for one run; a multiple of every machine's page */
#define MOST_RUNS 512   /* at a time */
#define UNWRITTEN (-77) /* what a run that is to be written holds before a call */

static int at_the_end; /* whether runs end right before what may not be touched, or begin right after it */

static char *rooms[MOST_RUNS]; /* each between two of its size that may not be touched; made when first needed */
static size_t used;

/* A run of these bytes, or, without any, of as many that are to be set. */
static void *edge(const void *bytes, size_t size)
{
    char *run;
    if (used < MOST_RUNS && rooms[used] == NULL) {
        char *start = mmap(NULL, 3 * ROOM, PROT_NONE, MAP_PRIVATE | MAP_ANONYMOUS, -1, 0);
        if (start != MAP_FAILED && mprotect(start + ROOM, ROOM, PROT_READ | PROT_WRITE) == 0)
            rooms[used] = start + ROOM;
    }
    if (size > ROOM || used == MOST_RUNS || rooms[used] == NULL) {
        fprintf(stderr, "no memory for a run of %zu bytes\n", size);
        exit(2);
    }
    run = rooms[used++] + (at_the_end ? ROOM - size : 0);
    return bytes == NULL ? run : memcpy(run, bytes, size);
}

static int64_t *unwritten(size_t length)
{
    int64_t *run = edge(NULL, length <= ROOM ? length * sizeof *run : SIZE_MAX);
    for (size_t i = 0; i < length; i++)
        run[i] = UNWRITTEN;
    return run;
}

#endif
