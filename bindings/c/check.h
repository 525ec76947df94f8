/* What the test programs share: a check, counted, and printed where it fails; and the line that a program ends with. */
#ifndef A5_CHECK_H
#define A5_CHECK_H

#include <stdio.h>

static int checks, failures;

static void check(int ok, const char *what, const char *name, const char *file, int line) {
    checks++;
    if (ok)
        return;
    failures++;
    printf("%s:%d: %s: %s\n", file, line, name, what);
}
#define CHECK(ok, name) check(ok, #ok, name, __FILE__, __LINE__)

/* The exit status, after one line. */
static int finished(const char *program) {
    printf("%s: %d checks, %d failed\n", program, checks, failures);
    return failures != 0;
}

#endif
