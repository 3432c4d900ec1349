/* What each of these programs counts and prints: a line for each thing that isn't as expected, and last how many were. */
#ifndef EXPECT_H
#define EXPECT_H

#include <stdio.h>

static int passed, failed;

static void expect(int holds, const char *what) {
    if (holds) {
        passed++;
    } else {
        failed++;
        printf("not so: %s\n", what);
    }
}

/* The program's exit status. */
static int tell(void) {
    printf("%d passed, %d failed\n", passed, failed);
    return failed > 0;
}

#endif
