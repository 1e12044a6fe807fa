/* Counts what holds, and tells what does not. */
#ifndef EXPECT_H
#define EXPECT_H

#include <stdbool.h>

/* From here on, a page that may not be touched and is ends the program with a message. */
void expect_begin(void);

#define EXPECT(claim) expect((claim), #claim, __FILE__, __LINE__)

void expect(bool holds, const char *claim, const char *file, int line);

/* What the claims that follow are about, for the message. */
void about(const char *format, ...) __attribute__((format(printf, 1, 2)));

/* How many claims have failed. */
extern unsigned long expect_failed;

/* Prints the count; 0 where nothing failed. */
int expect_report(void);

#endif
