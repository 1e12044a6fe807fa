/* What is asked of libprobe.a, since the C face does not pass through it. As in cart.h, the result is 0 or a refusal's
   number unless it is said otherwise, numbers come back through the last pointers on every call, and those of a refused
   call are 0. */
#ifndef PROBE_H
#define PROBE_H

#include <stddef.h>
#include <stdint.h>

/* A field of n bits from bit `at` on; the n zeros up to a 1, at most `cap`. The bit behind what was read is `next`. */
uint32_t probe_read_bits(const uint8_t *payload, size_t len, uint64_t at, uint32_t n, uint32_t *value, uint64_t *next);
uint32_t probe_zero_prefix(const uint8_t *payload, size_t len, uint64_t at, uint32_t cap, uint32_t *n, uint64_t *next);

/* Whether no 1 stands from bit `at` on: 1 or 0. */
uint32_t probe_end_of_data(const uint8_t *payload, size_t len, uint64_t at);

/* Writes the low n bits of v at bit `at`: refused with 1 where n is above 56, and with 3 where there is no room. */
uint32_t probe_put(uint8_t *buffer, size_t len, uint64_t at, uint32_t n, uint64_t v, uint64_t *next);

/* One place of a block scan, or of its inverse. */
uint32_t probe_scan(uint64_t scan, uint64_t inverse, uint64_t index, uint64_t *place);

/* Whether both matrices are flat: 1 or 0. */
uint32_t probe_is_default(const uint8_t luma[64], const uint8_t chroma[64]);

#endif
