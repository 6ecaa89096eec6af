/* The checks of the firmware loop: each compares an answer with the one due, tells where they differ, and is counted. */

#ifndef CHECK_H
#define CHECK_H

#include "ring.h"
#include <stdio.h>
#include <string.h>

/* How many were made, and how many of them failed; the file with main has the two. */
extern int checks, wrong;

/* The number, how many values there are, and all four. */
static inline void expect(const char *what, struct ring_answer a, uint32_t number, uint32_t count, uint32_t v0, uint32_t v1, uint32_t v2, uint32_t v3)
{
    const uint32_t v[4] = {v0, v1, v2, v3};
    checks++;
    if (a.number != number || a.count != count || memcmp(a.values, v, sizeof v) != 0) {
        printf("%s: %u, %u of {%u, %u, %u, %u}, not %u, %u of {%u, %u, %u, %u}\n", what, a.number, a.count, a.values[0], a.values[1], a.values[2],
               a.values[3], number, count, v0, v1, v2, v3);
        wrong++;
    }
}

/* The number, how many runs there are, and both of them. */
static inline void expect_runs(const char *what, struct ring_runs a, uint32_t number, uint32_t runs, size_t s0, size_t e0, size_t s1, size_t e1)
{
    checks++;
    if (a.number != number || a.runs != runs || a.start[0] != s0 || a.end[0] != e0 || a.start[1] != s1 || a.end[1] != e1) {
        printf("%s: %u, %u of {%lu to %lu, %lu to %lu}, not %u, %u of {%lu to %lu, %lu to %lu}\n", what, a.number, a.runs,
               (unsigned long)a.start[0], (unsigned long)a.end[0], (unsigned long)a.start[1], (unsigned long)a.end[1], number, runs,
               (unsigned long)s0, (unsigned long)e0, (unsigned long)s1, (unsigned long)e1);
        wrong++;
    }
}

static inline void expect_true(const char *what, int holds)
{
    checks++;
    if (!holds) wrong++, printf("%s\n", what);
}

/* All words of two of the longest tables. */
static inline void expect_same(const char *what, const uint32_t *a, const uint32_t *b)
{
    expect_true(what, memcmp(a, b, RING_TABLE_WORDS_MOST * sizeof *a) == 0);
}

/* Prints the last line, and gives the exit status. */
static inline int closing_line(const char *program)
{
    printf("%s: %d checks, %d wrong\n", program, checks, wrong);
    return wrong != 0;
}

#endif
