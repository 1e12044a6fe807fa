/* Calls of every function of the face, on both sides (zones.h). Each is held to what cart.h says of every call: each
   outcome leaves the output as it should, and the numbers of a refused call are 0. What comes back is the answer, and a
   copy of the output until the next call. */
#ifndef CALLS_H
#define CALLS_H

#include "../bytes.h"

#include <cart.h>

/* A slice has three codes, Y, Cb and Cr; all else has one. */
struct encoded {
    uint32_t result;
    uint64_t bytes[3], bits[3], needed; /* `needed` is 0 but with CART_ROOM */
    const uint8_t *code;
};

struct decoded {
    uint32_t result;
    uint64_t component, bits[3];
    const void *list;
};

struct shape {
    uint64_t macroblocks, chroma, scan;
};

struct matrices {
    uint32_t result;
    const uint8_t *luma, *chroma; /* WEIGHTS each */
};

struct matrix_flags {
    uint64_t valid, load_luma, load_chroma;
};

struct encoded encode(uint64_t blocks, const uint8_t *coeffs, size_t coeffs_len, size_t room);
struct decoded decode(uint64_t blocks, const uint8_t *payload, size_t payload_len, size_t coeffs_len);
struct encoded encode_alpha(uint64_t kind, const uint16_t *samples, size_t samples_len, size_t room);
struct decoded decode_alpha(uint64_t kind, const uint8_t *payload, size_t payload_len, size_t samples_len);
struct encoded encode_slice(struct shape shape, const uint8_t *blocks, size_t blocks_len, size_t room);
struct decoded decode_slice(struct shape shape, const struct bytes payloads[3], size_t blocks_len);

/* The pairs in this order: flat, perceptual, the signatures of Proxy, LT, Standard and HQ. */
enum { WEIGHTS = 64, MATRIX_PAIRS = 6 };
struct matrices matrix_pair(unsigned pair);
struct matrices blend(uint64_t number);
struct matrix_flags matrix_flags(const uint8_t luma[WEIGHTS], const uint8_t chroma[WEIGHTS]);
uint64_t qscale(uint8_t index);

#endif
