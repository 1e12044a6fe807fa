/* A call with its buffers and numbers between things that must stay as they are:

       while (next_side())
           made(cart_qscale(index, number(0)));

   A buffer lies against a page that may not be touched, so that reading past that end stops the program; on its other
   side is a red zone of known bytes, so that writing there shows. A number lies between two known numbers. The call is
   made once with the pages behind the buffers and once with them in front. Each time, what is around the buffers and
   what is only read must stay as it was, and both sides must answer the same. What was answered is there until the next
   call. */
#ifndef ZONES_H
#define ZONES_H

#include <stdbool.h>
#include <stddef.h>
#include <stdint.h>

enum { ZONES = 4, NUMBERS = 7, LONGEST = 3 << 16 };

struct answer {
    uint32_t result;
    uint64_t told[NUMBERS];       /* the numbers that came back */
    uint8_t left[ZONES][LONGEST]; /* what each buffer that may be written held afterwards */
};

/* Begins the next side; false where both are done. */
bool next_side(void);

/* A buffer, each in a zone of its own: with content that is only read, with old content, by which one sees whether it
   was written, and with content that may be changed. One of length 0 is NULL, or a page that may not be touched. */
const void *reads(unsigned zone, const void *content, size_t size);
void *writes(unsigned zone, size_t size);
void *changes(unsigned zone, const void *content, size_t size);

/* A buffer of bytes as a call takes it, with its length. */
#define READS(zone, content, size) reads(zone, content, size), size
#define WRITES(zone, size) writes(zone, size), size

/* The pointer of a number that comes back. It holds something that no call answers. */
uint64_t *number(unsigned n);

/* The call was made, and gave this result. */
void made(uint32_t result);

extern const struct answer *const answered;

/* Whether bytes are the old content from the place `from` on, up to `to`; and whether they are 0. */
bool still_old(const void *buffer, size_t from, size_t to);
bool all_zero(const void *buffer, size_t size);

/* From here on the old content is this byte everywhere. */
void old_content(uint8_t byte);

#endif
