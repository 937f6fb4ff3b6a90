/* check.h: what the C programs over the boundary share. CHECK tells of a condition that does not hold and goes on; a
 * program's main ends with `return checked("NAME.c");`. */
#ifndef CHECK_H
#define CHECK_H

#include <stdio.h>

#include "nuvaskoe.h"

static int checks;
static int failures;

#define CHECK(condition)                                                                \
    do {                                                                                \
        checks++;                                                                       \
        if (!(condition)) {                                                             \
            failures++;                                                                 \
            fprintf(stderr, "%s:%d: not so: %s\n", __FILE__, __LINE__, #condition);     \
        }                                                                               \
    } while (0)

/* The exit status of a program, after a line that says how many checks passed. */
static int checked(const char *name)
{
    if (failures != 0) {
        fprintf(stderr, "%s: %d of %d checks failed\n", name, failures, checks);
        return 1;
    }
    printf("%s: %d checks passed\n", name, checks);
    return 0;
}

#endif
