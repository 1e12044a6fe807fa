#include "calls.h"

#include "expect.h"
#include "met.h"
#include "zones.h"

/* ---- the coders: zone 3 is what is written */

/* The bits of a code fill its bytes but for less than a byte, and the rest is zero. */
static bool code_ends(const uint8_t *code, uint64_t bytes, uint64_t bits)
{
    return bytes == (bits + 7) / 8 && (bits % 8 == 0 || (uint8_t)(code[bytes - 1] << bits % 8) == 0);
}

/* The numbers from 0 on are the bytes of each code, and those from 3 on its bits. Three codes have the needed bytes in
   number 6, one has them in the place of its own. */
static struct encoded encoded(const char *function, unsigned codes, size_t room)
{
    const uint64_t *told = answered->told;
    bool no_room = answered->result == CART_ROOM, in_place = no_room && codes == 1;
    struct encoded e = {answered->result, {0}, {0}, codes == 3 ? told[6] : in_place ? told[0] : 0, answered->left[3]};
    size_t all = 0;
    meet(function, e.result);
    for (unsigned i = 0; i < codes; i++) {
        e.bytes[i] = in_place ? 0 : told[i];
        e.bits[i] = told[3 + i];
        if (e.result == CART_DONE)
            EXPECT(all + e.bytes[i] <= room && code_ends(e.code + all, e.bytes[i], e.bits[i]) &&
                   (codes == 1 || e.bits[i] > 0));
        else
            EXPECT(e.bytes[i] == 0 && e.bits[i] == 0);
        all += e.bytes[i];
    }
    if (no_room || codes == 3)
        EXPECT(no_room ? e.needed > room : e.needed == 0);
    /* beyond the codes, or wholly if there are none, the output is as it was */
    EXPECT(still_old(e.code, all, room));
    return e;
}

/* The numbers from 0 on are the bits of each payload; three payloads have the component in number 3. */
static struct decoded decoded(const char *function, unsigned payloads, size_t size)
{
    const uint64_t *told = answered->told;
    struct decoded d = {answered->result, payloads == 3 ? told[3] : CART_NO_COMPONENT, {0}, answered->left[3]};
    bool of_payload = d.result >= CART_SHORT && d.result <= CART_PADDING;
    meet(function, d.result);
    for (unsigned i = 0; i < payloads; i++) {
        d.bits[i] = told[i];
        if (d.result != CART_DONE)
            EXPECT(d.bits[i] == 0);
    }
    if (payloads == 3)
        EXPECT(of_payload ? d.component >= CART_Y && d.component <= CART_CR : d.component == CART_NO_COMPONENT);
    if (of_payload)
        EXPECT(all_zero(d.list, size));
    else if (d.result != CART_DONE)
        EXPECT(still_old(d.list, 0, size));
    return d;
}

struct encoded encode(uint64_t blocks, const uint8_t *coeffs, size_t coeffs_len, size_t room)
{
    while (next_side())
        made(cart_encode(blocks, READS(0, coeffs, coeffs_len), WRITES(3, room), number(0), number(3)));
    return encoded("cart_encode", 1, room);
}

struct decoded decode(uint64_t blocks, const uint8_t *payload, size_t payload_len, size_t coeffs_len)
{
    while (next_side())
        made(cart_decode(blocks, READS(0, payload, payload_len), WRITES(3, coeffs_len), number(0)));
    return decoded("cart_decode", 1, coeffs_len);
}

struct encoded encode_alpha(uint64_t kind, const uint16_t *samples, size_t samples_len, size_t room)
{
    size_t size = samples_len * sizeof *samples;
    while (next_side())
        made(cart_encode_alpha(kind, reads(0, samples, size), samples_len, WRITES(3, room), number(0), number(3)));
    return encoded("cart_encode_alpha", 1, room);
}

struct decoded decode_alpha(uint64_t kind, const uint8_t *payload, size_t payload_len, size_t samples_len)
{
    size_t size = samples_len * sizeof(uint16_t);
    while (next_side())
        made(cart_decode_alpha(kind, READS(0, payload, payload_len), writes(3, size), samples_len, number(0)));
    return decoded("cart_decode_alpha", 1, size);
}

struct encoded encode_slice(struct shape s, const uint8_t *blocks, size_t blocks_len, size_t room)
{
    while (next_side())
        made(cart_encode_slice(s.macroblocks, s.chroma, s.scan, READS(0, blocks, blocks_len), WRITES(3, room),
                               number(0), number(1), number(2), number(3), number(4), number(5), number(6)));
    return encoded("cart_encode_slice", 3, room);
}

struct decoded decode_slice(struct shape s, const struct bytes payloads[3], size_t blocks_len)
{
    const struct bytes y = payloads[0], cb = payloads[1], cr = payloads[2];
    while (next_side())
        made(cart_decode_slice(s.macroblocks, s.chroma, s.scan, READS(0, y.at, y.len), READS(1, cb.at, cb.len),
                               READS(2, cr.at, cr.len), WRITES(3, blocks_len), number(3), number(0), number(1),
                               number(2)));
    return decoded("cart_decode_slice", 3, blocks_len);
}

/* ---- matrices: zone 0 is luma, zone 1 chroma */

static struct matrices matrices(const char *function)
{
    struct matrices m = {answered->result, answered->left[0], answered->left[1]};
    meet(function, m.result);
    if (m.result != CART_DONE)
        EXPECT(still_old(m.luma, 0, WEIGHTS) && still_old(m.chroma, 0, WEIGHTS));
    return m;
}

struct matrices matrix_pair(unsigned pair)
{
    static uint32_t (*const stores[MATRIX_PAIRS])(uint8_t luma[64], uint8_t chroma[64]) = {
        cart_flat, cart_perceptual, cart_signature_proxy, cart_signature_lt, cart_signature_standard, cart_signature_hq,
    };
    while (next_side())
        made(stores[pair](writes(0, WEIGHTS), writes(1, WEIGHTS)));
    return matrices("cart_flat and its like");
}

struct matrices blend(uint64_t number)
{
    while (next_side())
        made(cart_blend(number, writes(0, WEIGHTS), writes(1, WEIGHTS)));
    return matrices("cart_blend");
}

struct matrix_flags matrix_flags(const uint8_t luma[WEIGHTS], const uint8_t chroma[WEIGHTS])
{
    while (next_side())
        made(cart_matrix_flags(reads(0, luma, WEIGHTS), reads(1, chroma, WEIGHTS), number(0), number(1), number(2)));
    meet("cart_matrix_flags", answered->result);
    EXPECT(answered->result == CART_DONE);
    return (struct matrix_flags){answered->told[0], answered->told[1], answered->told[2]};
}

uint64_t qscale(uint8_t index)
{
    while (next_side())
        made(cart_qscale(index, number(0)));
    meet("cart_qscale", answered->result);
    EXPECT(answered->result == CART_DONE);
    return answered->told[0];
}
