/* Counts checks. */
#ifndef CHECK_H
#define CHECK_H

#include <stdio.h>

static int passed;
static int failed;

static void check(int ok, const char *what)
{
    if (ok) {
        passed++;
        return;
    }
    failed++;
    printf("failed: %s\n", what);
}

#define CHECK(ok) check((ok), #ok)

/* The last line, and the status to end with. */
static int report(void)
{
    printf("%d passed, %d failed\n", passed, failed);
    return failed != 0;
}

#endif
