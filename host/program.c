#include "program.h"

#include <cart.h>
#include <errno.h>
#include <stdarg.h>
#include <stdbool.h>
#include <stdio.h>
#include <stdlib.h>
#include <string.h>

void fail(const char *format, ...)
{
    va_list words;
    va_start(words, format);
    fprintf(stderr, "%s: ", program);
    vfprintf(stderr, format, words);
    fputc('\n', stderr);
    va_end(words);
    exit(2);
}

static bool asks(const char *word, const char *shorter, const char *longer)
{
    return strcmp(word, shorter) == 0 || strcmp(word, longer) == 0;
}

void begin(int argc, char **argv, const char *help)
{
    /* where one of these is closed, the next file to be opened would get its place and what is said there */
    if (ftell(stderr) == -1 && errno == EBADF && !freopen("/dev/null", "w", stderr))
        exit(2);
    if (ftell(stdout) == -1 && errno == EBADF)
        fail("standard output: %s", strerror(errno));
    if (argc < 2)
        return;
    if (asks(argv[1], "-h", "--help"))
        fputs(help, stdout);
    else if (asks(argv[1], "-V", "--version"))
        printf("%s %s\n", program, CART_VERSION_STRING);
    else
        return;
    exit(finish(0));
}

int finish(int status)
{
    bool failed = ferror(stdout);
    errno = 0;
    if (fflush(stdout) != 0 || failed)
        fail("standard output: %s", errno ? strerror(errno) : "not all of it could be written");
    return status;
}
