/* SPDX-License-Identifier: MIT

   cart_plain.h: what most programs over cart.h need beside it, as plain C: names of refusals, coefficients in a list, a
   slice's arguments and answers as structs, and the check of what a payload has left.

   It is NOT proved. host/plain.c tests it. It is C99 and C++11, and needs no more of a library than cart.h does. */
#ifndef CART_PLAIN_H
#define CART_PLAIN_H

#include "cart.h"

/* A refusal in short words, for people. */
static inline const char *cart_refusal_name(uint32_t refusal)
{
    switch (refusal) {
    case CART_DONE: return "done";
    case CART_LIMIT: return "a count or a payload's length is outside the limits";
    case CART_LENGTH: return "the list is not as long as its blocks are";
    case CART_ROOM: return "no room for the code";
    case CART_VALUE: return "a value to encode is out of range";
    case CART_SHORT: return "the bits run out";
    case CART_CODEWORD: return "a bad codeword";
    case CART_OVERRUN: return "a run passes the last coefficient";
    case CART_RANGE: return "a coefficient is out of range";
    case CART_LONG_RUN: return "a long alpha run that should be a short one";
    case CART_ALPHA_OVERRUN: return "an alpha run passes the last sample";
    case CART_TAIL: return "more than 7 bits are left after alpha";
    case CART_PADDING: return "a 1 is left after alpha";
    case CART_SELECTOR: return "an unknown selector";
    default: return "no refusal has this number";
    }
}

static inline const char *cart_component_name(uint64_t component)
{
    switch (component) {
    case CART_NO_COMPONENT: return "no component";
    case CART_Y: return "Y";
    case CART_CB: return "Cb";
    case CART_CR: return "Cr";
    default: return "no component has this number";
    }
}

/* The coefficient at a place of a coefficient list or a block list, counted in coefficients and not in bytes. They work on a
   machine of either byte order. */
static inline int32_t cart_get(const uint8_t *list, size_t place)
{
    uint32_t word = 0;
    size_t i;
    for (i = 0; i < 4; i++)
        word |= (uint32_t)list[4 * place + i] << 8 * i;
    /* a cast of a word above INT32_MAX is not the same everywhere */
    return word <= INT32_MAX ? (int32_t)word : -1 - (int32_t)~word;
}

static inline void cart_put(uint8_t *list, size_t place, int32_t value)
{
    size_t i;
    for (i = 0; i < 4; i++)
        list[4 * place + i] = (uint8_t)((uint32_t)value >> 8 * i);
}

/* The first three arguments of both slice calls. */
struct cart_shape {
    uint64_t macroblocks, chroma, scan;
};

/* The payloads of a slice's three components. */
struct cart_payloads {
    const uint8_t *y;
    size_t y_len;
    const uint8_t *cb;
    size_t cb_len;
    const uint8_t *cr;
    size_t cr_len;
};

/* What cart_decode_slice answers: its result, and its numbers. */
struct cart_slice_read {
    uint32_t refusal;
    uint64_t component, y_bits, cb_bits, cr_bits;
};

/* cart_decode_slice. */
CART_CAN_REFUSE
static inline struct cart_slice_read cart_read_slice(struct cart_shape shape, struct cart_payloads payloads, uint8_t *blocks,
                                                     size_t blocks_len)
{
    struct cart_slice_read read;
    read.refusal = cart_decode_slice(shape.macroblocks, shape.chroma, shape.scan, payloads.y, payloads.y_len, payloads.cb,
                                     payloads.cb_len, payloads.cr, payloads.cr_len, blocks, blocks_len, &read.component,
                                     &read.y_bits, &read.cb_bits, &read.cr_bits);
    return read;
}

/* What cart_encode_slice answers: its result, and its numbers. */
struct cart_slice_written {
    uint32_t refusal;
    uint64_t y_bytes, cb_bytes, cr_bytes, y_bits, cb_bits, cr_bits, needed;
};

/* cart_encode_slice. */
CART_CAN_REFUSE
static inline struct cart_slice_written cart_write_slice(struct cart_shape shape, const uint8_t *blocks, size_t blocks_len,
                                                         uint8_t *out, size_t out_len)
{
    struct cart_slice_written written;
    written.refusal =
        cart_encode_slice(shape.macroblocks, shape.chroma, shape.scan, blocks, blocks_len, out, out_len, &written.y_bytes,
                          &written.cb_bytes, &written.cr_bytes, &written.y_bits, &written.cb_bits, &written.cr_bits,
                          &written.needed);
    return written;
}

/* Where the three codes lie in the `out` that a slice was written to. After a refusal none has a byte. */
static inline struct cart_payloads cart_slice_codes(const uint8_t *out, const struct cart_slice_written *written)
{
    struct cart_payloads codes = {out, 0, out, 0, out, 0};
    if (written->refusal == CART_DONE) {
        codes.y_len = (size_t)written->y_bytes;
        codes.cb = codes.y + codes.y_len;
        codes.cb_len = (size_t)written->cb_bytes;
        codes.cr = codes.cb + codes.cb_len;
        codes.cr_len = (size_t)written->cr_bytes;
    }
    return codes;
}

/* The check that cart_decode_slice and cart_decode leave to the caller: 1 where `bits` bits of a payload were read and a 1 is
   among those behind them, so that it holds more than was asked of it; else 0. */
static inline int cart_left_over(const uint8_t *payload, size_t payload_len, uint64_t bits)
{
    uint64_t i;
    for (i = bits / 8; i < payload_len; i++)
        if ((payload[i] & (i == bits / 8 ? 0xff >> bits % 8 : 0xff)) != 0)
            return 1;
    return 0;
}

#endif
