/* check.h: counts of checks for a C test, and the verdict that tests/run reads. */
#ifndef CHECK_H
#define CHECK_H

#include <stdio.h>

static int checks_passed, checks_failed;

/* Counts one check, once however often a loop comes by; one that fails is named with its line. */
#define CHECK(what) \
    do { \
        static int seen; \
        check((what), &seen, #what, __FILE__, __LINE__); \
    } while (0)

enum { PASSED = 1, FAILED };

static inline void check(int holds, int *seen, const char *what, const char *file, int line)
{
    if (!holds)
        printf("%s:%d: failed: %s\n", file, line, what);
    if (*seen == 0) {
        checks_passed++;
        *seen = PASSED;
    }
    if (!holds && *seen == PASSED) {
        checks_passed--;
        checks_failed++;
        *seen = FAILED;
    }
}

/* Prints the verdict; what main returns. */
static inline int verdict(void)
{
    printf("%d passed, %d failed\n", checks_passed, checks_failed);
    return checks_failed != 0;
}

#endif
