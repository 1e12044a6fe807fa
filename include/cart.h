/* SPDX-License-Identifier: MIT

   cart.h: reads and writes the payloads of ProRes slices (SMPTE RDD 36) and their alpha. The functions are in
   libcart.a, for Linux on x86-64; cart_plain.h has what most programs need beside them.

   The functions are written in Rattle. It is proved that for every argument each gives the result, the numbers and the
   buffers that its definition says; this file says the same in words. That the compiler keeps to the source is taken on
   trust. The definitions were written from document 01, the project's list of rules, which gives those of RDD 36
   (docs/FORMAT.md has them in our words); RDD 36 itself was not at hand. Where slices are concerned, two differences from
   it are known: the end of data, and the masking of small alpha differences (docs/DIFFERENCES.md).

   Rules of every call

   Result    0, CART_DONE, or the number of the reason for which the call was refused: enum cart_refusal. Where several
             reasons hold, a function's comment lists its refusals in the order in which they are looked for (those of
             a payload come in the order of its bits).
   Numbers   come back through the last pointers. Every call writes all of them, a refused one too: then they are 0,
             unless it is said otherwise. Such a pointer is never NULL, and no two of a call are the same.
   Buffers   are a pointer and a number of elements, its `_len`: bytes, or samples where the pointer is to uint16_t.
             With length 0 the pointer may be NULL. A matrix is 64 bytes, and never NULL. Nothing outside a buffer is read or written, whatever it holds.
   Overlap   What a call writes (a buffer or a number) overlaps nothing else that the same call is given. Buffers that
             it only reads may overlap each other.
   Refused   Refusals 1 to 4 and 13 are about the arguments, and leave every buffer as it was. Refusals 5 to 12 are about
             a payload, come in the order of its bits, and set the whole output list to zero.
   Threads   There is no state: any thread may make any call at any time, on buffers of its own. A buffer that is only
             read may be read by several calls at once.
   Memory    Nothing is allocated and nothing is kept; a call takes at most 64 KB of stack (host/face/threads.c tries it).
             The archive needs memcpy and memset of the C library, and nothing else.

   It is the caller's part that pointers and lengths are those of memory which may be read (written). All other
   arguments may be anything: what cannot be served is refused. */
#ifndef CART_H
#define CART_H

#include <stddef.h>
#include <stdint.h>

#ifdef __cplusplus
extern "C" {
#endif

/* The version stands here alone. CART_VERSION is for #if: two digits each for the minor number and the patch. */
#define CART_VERSION_MAJOR 0
#define CART_VERSION_MINOR 1
#define CART_VERSION_PATCH 0
#define CART_VERSION (CART_VERSION_MAJOR * 10000 + CART_VERSION_MINOR * 100 + CART_VERSION_PATCH)
#define CART_VERSION_STRING \
    CART_STRING(CART_VERSION_MAJOR) "." CART_STRING(CART_VERSION_MINOR) "." CART_STRING(CART_VERSION_PATCH)
#define CART_STRING(value) CART_STRING_OF(value)
#define CART_STRING_OF(words) #words

/* For the warnings of GCC and clang: a result that must be looked at, since the call can be refused; and the parameters,
   counted from 1, that may not be NULL. */
#ifdef __GNUC__
#define CART_CAN_REFUSE __attribute__((warn_unused_result))
#define CART_NO_NULL(parameters) __attribute__((nonnull parameters))
#else
#define CART_CAN_REFUSE
#define CART_NO_NULL(parameters)
#endif

/* What a call answers. */
enum cart_refusal {
    CART_DONE = 0,           /* not refused */
    CART_LIMIT = 1,          /* a count or a payload's length is outside the limits below */
    CART_LENGTH = 2,         /* a coefficient list is not as long as its blocks are */
    CART_ROOM = 3,           /* the output buffer is shorter than the code; the bytes that are needed are told */
    CART_VALUE = 4,          /* a value to encode is out of range: a coefficient, or an 8-bit alpha sample above 255 */
    CART_SHORT = 5,          /* the payload's bits run out before something that is due is complete */
    CART_CODEWORD = 6,       /* a bad codeword: too many zeros, or a number of more than 32 bits */
    CART_OVERRUN = 7,        /* a run of zero coefficients leaves no place for the value behind it */
    CART_RANGE = 8,          /* a decoded coefficient is out of range */
    CART_LONG_RUN = 9,       /* alpha: a long run that should have been written as a short one */
    CART_ALPHA_OVERRUN = 10, /* alpha: a run passes the last sample */
    CART_TAIL = 11,          /* alpha: more than 7 bits are left after the last sample */
    CART_PADDING = 12,       /* alpha: at most 7 bits are left after the last sample, and one of them is a 1 */
    CART_SELECTOR = 13       /* a selector is unknown: chroma format, scan, alpha kind or blend number */
};

/* Selectors. */
enum cart_chroma { CART_422 = 2, CART_444 = 3 };
enum cart_scan { CART_PROGRESSIVE = 0, CART_INTERLACED = 1 };
enum cart_alpha { CART_ALPHA_8 = 1, CART_ALPHA_16 = 2 };

/* The component that cart_decode_slice refused. */
enum cart_component { CART_NO_COMPONENT = 0, CART_Y = 1, CART_CB = 2, CART_CR = 3 };

/* Limits. */
#define CART_MAX_BLOCKS 32             /* of cart_encode and cart_decode; 0 is the least */
#define CART_MAX_MACROBLOCKS 8         /* of a slice; 1 is the least */
#define CART_MAX_SAMPLES 16384         /* of alpha; 0 is the least */
#define CART_MAX_PAYLOAD 65536         /* bytes of one payload to decode */
#define CART_MAX_COEFFICIENT 536870911 /* 2^29 - 1; the least coefficient is -(2^29 - 1) */

/* Bytes of a coefficient list: 64 coefficients a block, four bytes each, little-endian two's complement. */
#define CART_COEFFS_LEN(blocks) ((size_t)256 * (size_t)(blocks))

/* Bytes of a slice's block list: 8 blocks a macroblock in 4:2:2, 12 in 4:4:4. */
#define CART_SLICE_LEN(macroblocks, chroma) ((size_t)256 * (size_t)(macroblocks) * ((chroma) == CART_422 ? 8 : 12))

/* Bytes that are always enough for the code of `blocks` blocks, 0 to 32, whose coefficients are between -(2^b - 1) and
   2^b - 1, b from 0 to 29: `most-enough` of crates/cart/proofs/Demand.antt. */
#define CART_CODE_LEN(blocks, b) ((size_t)8 * (size_t)(blocks) * (2 * (size_t)(b) + 5))

/* The same for the three codes of a slice together: `most-enough` of crates/cart/proofs/SliceDemand.antt. */
#define CART_SLICE_CODE_LEN(macroblocks, chroma, b) CART_CODE_LEN((size_t)(macroblocks) * ((chroma) == CART_422 ? 8 : 12), b)

/* Bits that are always enough for the code of alpha samples, 10 a sample of kind 1 and 18 of kind 2: `bits-le` of
   crates/alpha/proofs/Demand.antt. */
#define CART_ALPHA_CODE_BITS(kind, samples) ((size_t)((kind) == CART_ALPHA_8 ? 10 : 18) * (size_t)(samples))

/* Bytes that are always enough for that code: `most-enough` of crates/cart/proofs/AlphaDemand.antt. */
#define CART_ALPHA_CODE_LEN(kind, samples) ((CART_ALPHA_CODE_BITS(kind, samples) + 7) / 8)

/* ---- Slices ---------------------------------------------------------------------------------------------------------

   A slice is 1 to 8 macroblocks side by side. Its block list has the macroblocks in order, each with its blocks in order: 4 of
   Y, then those of Cb, then those of Cr (2 each in 4:2:2, 4 each in 4:4:4). A block is 64 coefficients in natural order (row by
   row, the DC first), not in scan order; each is four bytes, little-endian two's complement. The payloads are what follows
   the slice's header: Y, Cb, Cr, each from a byte on. Headers are not read or written here. */

/* Encodes a slice: the codes of Y, Cb and Cr, one after another from the start of `out`.

   macroblocks   1 to 8
   chroma        CART_422 or CART_444
   scan          CART_PROGRESSIVE or CART_INTERLACED
   blocks        the block list, CART_SLICE_LEN(macroblocks, chroma) bytes
   out           takes the codes; CART_SLICE_CODE_LEN(macroblocks, chroma, 29) bytes are enough for any slice
   y_bytes, cb_bytes, cr_bytes   the bytes of each code, so Cb starts at out + *y_bytes
   y_bits, cb_bits, cr_bits      the bits of each code before it was filled up with zero bits to a byte
   needed        with refusal 3 the bytes that `out` must have, for the three codes together; else 0

   Refusals: 13 chroma or scan is unknown; 1 macroblocks is not 1 to 8; 2 blocks_len is not
   CART_SLICE_LEN(macroblocks, chroma); 4 a coefficient is not within +-(2^29 - 1); 3 out_len is less than the three codes.

   Done: `out` begins with the codes, and its bytes beyond them are as they were. Refused: `out` is as it was. */
CART_CAN_REFUSE CART_NO_NULL((8, 9, 10, 11, 12, 13, 14))
uint32_t cart_encode_slice(uint64_t macroblocks, uint64_t chroma, uint64_t scan, const uint8_t *blocks, size_t blocks_len,
                           uint8_t *out, size_t out_len, uint64_t *y_bytes, uint64_t *cb_bytes, uint64_t *cr_bytes,
                           uint64_t *y_bits, uint64_t *cb_bits, uint64_t *cr_bits, uint64_t *needed);

/* Decodes a slice: its three payloads into one block list.

   macroblocks, chroma, scan   as for cart_encode_slice
   y, cb, cr     the payloads, at most CART_MAX_PAYLOAD bytes each
   blocks        takes the block list: CART_SLICE_LEN(macroblocks, chroma) bytes
   component     with refusals 5 to 8 the component that was refused, CART_Y, CART_CB or CART_CR; else 0
   y_bits, cb_bits, cr_bits    the bits that were read of each payload

   Refusals: 13 chroma or scan is unknown; 1 macroblocks is not 1 to 8, or a payload is longer than CART_MAX_PAYLOAD;
   2 blocks_len is not CART_SLICE_LEN(macroblocks, chroma); then those of the payloads, Y before Cb before Cr: 5 its bits run
   out, 6 a bad codeword, 7 a run reaches the end of the coefficients, 8 a coefficient is not within +-(2^29 - 1).

   Done: `blocks` is the block list. Refused with 13, 1 or 2: `blocks` is as it was. Refused with 5 to 8: all of `blocks` is
   zero, and the bits are 0, also those of a component that was read before.

   Done does not say that a payload was read to its end: zero bits behind the last coefficient are not read, and once
   every coefficient has been read nothing is. Look at the bits behind those that were read (cart_left_over of cart_plain.h
   does): where one of them is a 1, the payload holds more than these blocks, and the macroblocks, the format or its length is
   likely wrong. */
CART_CAN_REFUSE CART_NO_NULL((12, 13, 14, 15))
uint32_t cart_decode_slice(uint64_t macroblocks, uint64_t chroma, uint64_t scan, const uint8_t *y, size_t y_len,
                           const uint8_t *cb, size_t cb_len, const uint8_t *cr, size_t cr_len, uint8_t *blocks,
                           size_t blocks_len, uint64_t *component, uint64_t *y_bits, uint64_t *cb_bits, uint64_t *cr_bits);

/* ---- Scanned coefficients: one component's payload ------------------------------------------------------------------

   The list is in scan order over all blocks: first the DC of every block, then scanned coefficient 1 of every block, and so on,
   so that coefficient n of block b is at 4 * (n * blocks + b). Each is four bytes, little-endian two's complement. */

/* Encodes scanned coefficients.

   blocks        0 to 32
   coeffs        the list, CART_COEFFS_LEN(blocks) bytes
   out           takes the code; CART_CODE_LEN(blocks, 29) bytes are enough for any list
   bytes         the bytes of the code; with refusal 3 the bytes that `out` must have
   bits          the bits of the code before it was filled up with zero bits to a byte

   Refusals: 1 blocks is more than 32; 2 coeffs_len is not CART_COEFFS_LEN(blocks); 4 a coefficient is not within +-(2^29 - 1);
   3 out_len is less than the code.

   Done: `out` begins with the code, and its bytes beyond it are as they were. Refused: `out` is as it was. Zero blocks are
   done with 0 bytes. */
CART_CAN_REFUSE CART_NO_NULL((6, 7))
uint32_t cart_encode(uint64_t blocks, const uint8_t *coeffs, size_t coeffs_len, uint8_t *out, size_t out_len,
                     uint64_t *bytes, uint64_t *bits);

/* Decodes scanned coefficients.

   blocks        0 to 32
   payload       the code, at most CART_MAX_PAYLOAD bytes
   coeffs        takes the list: CART_COEFFS_LEN(blocks) bytes
   bits          the bits that were read

   Refusals: 1 blocks is more than 32, or the payload is longer than CART_MAX_PAYLOAD; 2 coeffs_len is not
   CART_COEFFS_LEN(blocks); then those of the payload: 5 its bits run out, 6 a bad codeword, 7 a run reaches the end
   of the coefficients, 8 a coefficient is not within +-(2^29 - 1).

   Done: `coeffs` is the list. Refused with 1 or 2: `coeffs` is as it was. Refused with 5 to 8: all of `coeffs` is zero. Zero
   blocks are done with 0 bits, whatever the payload holds. Look at the bits that are left, as with cart_decode_slice. */
CART_CAN_REFUSE CART_NO_NULL((6))
uint32_t cart_decode(uint64_t blocks, const uint8_t *payload, size_t payload_len, uint8_t *coeffs, size_t coeffs_len,
                     uint64_t *bits);

/* ---- Alpha ----------------------------------------------------------------------------------------------------------

   The slice's samples row by row, one uint16_t each in both kinds; samples_len is their number, not their bytes. In the
   picture's last row of macroblocks an encoder may have coded the visible rows alone. */

/* Encodes alpha samples.

   kind          CART_ALPHA_8, samples of 0 to 255, or CART_ALPHA_16, samples of 0 to 65535
   samples       at most CART_MAX_SAMPLES
   out           takes the code; CART_ALPHA_CODE_LEN(kind, samples_len) bytes are always enough
   bytes         the bytes of the code; with refusal 3 the bytes that `out` must have
   bits          the bits of the code before it was filled up with zero bits to a byte

   Refusals: 13 kind is unknown; 1 there are too many samples; 4 a sample of CART_ALPHA_8 is above 255; 3 out_len is less than
   the code.

   Done: `out` begins with the code, and its bytes beyond it are as they were. Refused: `out` is as it was. No samples are
   done with 0 bytes. */
CART_CAN_REFUSE CART_NO_NULL((6, 7))
uint32_t cart_encode_alpha(uint64_t kind, const uint16_t *samples, size_t samples_len, uint8_t *out, size_t out_len,
                           uint64_t *bytes, uint64_t *bits);

/* Decodes alpha samples.

   kind          CART_ALPHA_8 or CART_ALPHA_16
   payload       the code, at most CART_MAX_PAYLOAD bytes; it must end where the samples end, within the same byte
   samples       takes the samples; samples_len, at most CART_MAX_SAMPLES, says how many the payload must have
   bits          the bits that were read

   Refusals: 13 kind is unknown; 1 there are too many samples, or the payload is longer than CART_MAX_PAYLOAD; then those of the
   payload: 5 its bits run out, 9 a long run that should have been a short one, 10 a run passes the last sample, 11 more than
   7 bits are left, 12 at most 7 bits are left and one of them is a 1.

   Done: `samples` is filled. Refused with 13 or 1: `samples` is as it was. Refused with 5 or 9 to 12: all of `samples` is zero.
   No samples and no bytes are done with 0 bits; no samples and any byte are refused with 11. */
CART_CAN_REFUSE CART_NO_NULL((6))
uint32_t cart_decode_alpha(uint64_t kind, const uint8_t *payload, size_t payload_len, uint16_t *samples, size_t samples_len,
                           uint64_t *bits);

/* ---- Weight matrices, and the scale of an index ---------------------------------------------------------------------

   A matrix is 64 weights in natural order, and a pair has one for luma and one for chroma. */

/* The scale of a quantisation index: index up to 128, then 128 + 4 * (index - 128). RDD 36 is said to have indices 1 to 224;
   any byte is answered. Never refused. */
CART_NO_NULL((2)) uint32_t cart_qscale(uint8_t index, uint64_t *scale);

/* Each stores a pair, all 128 weights, and is never refused: the flat pair (all fours, which is what holds where a frame carries
   none), the perceptual pair, and a pair for each profile, as quant.rs of the Rust that this is a port of has it: Proxy, LT,
   Standard, and HQ (also for 4444 and 4444 XQ). */
CART_NO_NULL((1, 2)) uint32_t cart_flat(uint8_t luma[64], uint8_t chroma[64]);
CART_NO_NULL((1, 2)) uint32_t cart_perceptual(uint8_t luma[64], uint8_t chroma[64]);
CART_NO_NULL((1, 2)) uint32_t cart_signature_proxy(uint8_t luma[64], uint8_t chroma[64]);
CART_NO_NULL((1, 2)) uint32_t cart_signature_lt(uint8_t luma[64], uint8_t chroma[64]);
CART_NO_NULL((1, 2)) uint32_t cart_signature_standard(uint8_t luma[64], uint8_t chroma[64]);
CART_NO_NULL((1, 2)) uint32_t cart_signature_hq(uint8_t luma[64], uint8_t chroma[64]);

/* Stores a pair between the flat one and the perceptual one: with `number` 1 to 8, each weight is
   ((8 - number) * 4 + number * W + 4) / 8 rounded down, where W is the perceptual weight; 8 is the perceptual pair itself.

   Refusals: 13 number is not 1 to 8; then both matrices are as they were. */
CART_CAN_REFUSE CART_NO_NULL((2, 3)) uint32_t cart_blend(uint64_t number, uint8_t luma[64], uint8_t chroma[64]);

/* What a frame header must know of a pair. Each number is 1 for yes and 0 for no. Never refused.

   valid         every weight is 2 to 63
   load_luma     luma must be carried: it is not all fours
   load_chroma   chroma must be carried: it differs from luma */
CART_NO_NULL((1, 2, 3, 4, 5))
uint32_t cart_matrix_flags(const uint8_t luma[64], const uint8_t chroma[64], uint64_t *valid, uint64_t *load_luma,
                           uint64_t *load_chroma);

#ifdef __cplusplus
}
#endif

#endif
