#include "expect.h"

#include <signal.h>
#include <stdarg.h>
#include <stdio.h>
#include <stdlib.h>

unsigned long expect_failed;
static unsigned long passed;
static char subject[200];

/* The program cannot go on from here, so it may print. */
static void touched(int number)
{
    (void)number;
    printf("FAILED: %s: memory that may not be touched was touched\n", subject);
    fflush(stdout);
    _Exit(1);
}

void expect_begin(void)
{
    signal(SIGSEGV, touched);
}

void expect(bool holds, const char *claim, const char *file, int line)
{
    if (holds) {
        passed++;
        return;
    }
    expect_failed++;
    printf("%s:%d: FAILED: %s: %s\n", file, line, subject, claim);
}

void about(const char *format, ...)
{
    va_list words;
    va_start(words, format);
    vsnprintf(subject, sizeof subject, format, words);
    va_end(words);
}

int expect_report(void)
{
    printf("%lu passed, %lu failed\n", passed, expect_failed);
    return expect_failed > 0;
}
