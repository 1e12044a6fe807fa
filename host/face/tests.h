/* The parts of the test, and what they share. */
#ifndef TESTS_H
#define TESTS_H

#include "../guarded/calls.h"
#include "../guarded/expect.h"
#include "../guarded/met.h"

#include <cart_plain.h>
#include <string.h>

void test_coefficients(void);
void test_slices(void);
void test_slice_scan(struct shape s);
void test_alpha(void);
void test_matrices(void);
void test_threads(void);

/* A number of at most 32 bits, the same in every run. */
uint32_t any_number(void);

/* Fills a list with coefficients of either sign below 2^b: some 0, some at the very end of the range, some between. */
void any_coefficients(uint8_t *list, size_t coefficients, unsigned b);

/* The bits of `blocks` blocks that are all zero: document 01's codebooks E5, then E3, then E0. */
static inline uint64_t zero_bits(uint64_t blocks)
{
    return blocks == 0 ? 0 : blocks == 1 ? 6 : 6 + 4 + (blocks - 2);
}

#endif
