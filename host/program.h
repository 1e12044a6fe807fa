/* What the programs of this folder do alike: how they say what went wrong, and how they end. The status is 0 where all is well,
   1 where something was found (a program's own text says what), and 2 where it could not do its work. */
#ifndef PROGRAM_H
#define PROGRAM_H

/* The program's name; each has its own. */
extern const char program[];

/* Says `NAME: why` on standard error, and ends with status 2. */
void fail(const char *format, ...) __attribute__((noreturn, format(printf, 1, 2)));

/* Comes first: where the first word asks for help or for the version, says it and ends. */
void begin(int argc, char **argv, const char *help);

/* Comes last: the status, once all that was printed has been written. */
int finish(int status);

#endif
