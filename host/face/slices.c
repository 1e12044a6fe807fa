/* cart_encode_slice and cart_decode_slice. */
#include "tests.h"

enum { MOST = CART_MAX_COEFFICIENT, LONGEST = CART_SLICE_LEN(CART_MAX_MACROBLOCKS, CART_444) };

static uint8_t blocks[LONGEST + 256], code[CART_SLICE_CODE_LEN(CART_MAX_MACROBLOCKS, CART_444, 29)];
static uint8_t zeros[CART_MAX_PAYLOAD + 1];
static const struct bytes none[3];

static size_t slice_len(struct shape s)
{
    return CART_SLICE_LEN(s.macroblocks, s.chroma);
}

/* Encodes the blocks with room for any, with just enough and with a byte less, and decodes the code. */
static struct encoded there_and_back(struct shape s, unsigned b)
{
    size_t len = slice_len(s);
    struct encoded first = encode_slice(s, blocks, len, CART_SLICE_CODE_LEN(s.macroblocks, s.chroma, b));
    uint64_t bytes = first.bytes[0] + first.bytes[1] + first.bytes[2];
    EXPECT(first.result == CART_DONE);
    memcpy(code, first.code, bytes);
    struct encoded e = encode_slice(s, blocks, len, bytes);
    EXPECT(e.result == CART_DONE && memcmp(e.bits, first.bits, sizeof e.bits) == 0 && memcmp(e.code, code, bytes) == 0);
    e = encode_slice(s, blocks, len, bytes - 1);
    EXPECT(e.result == CART_ROOM && e.needed == bytes);
    const uint8_t *cb = code + first.bytes[0], *cr = cb + first.bytes[1];
    struct decoded d =
        decode_slice(s, (struct bytes[]){{code, first.bytes[0]}, {cb, first.bytes[1]}, {cr, first.bytes[2]}}, len);
    EXPECT(d.result == CART_DONE && memcmp(d.bits, first.bits, sizeof d.bits) == 0 && memcmp(d.list, blocks, len) == 0);
    return first;
}

static void test_shape(struct shape s)
{
    uint64_t chroma_blocks = s.macroblocks * (s.chroma == CART_422 ? 2 : 4);
    size_t len = slice_len(s);
    about("slices, %d macroblocks, chroma %d, scan %d", (int)s.macroblocks, (int)s.chroma, (int)s.scan);
    memset(blocks, 0, sizeof blocks);
    struct encoded e = there_and_back(s, 0);
    EXPECT(e.bits[0] == zero_bits(4 * s.macroblocks));
    EXPECT(e.bits[1] == zero_bits(chroma_blocks) && e.bits[2] == zero_bits(chroma_blocks));
    for (unsigned b = 0; b <= 29; b += 1 + any_number() % 6) {
        any_coefficients(blocks, len / 4, b);
        there_and_back(s, b);
    }
    for (size_t i = 0; i < len / 4; i++)
        cart_put(blocks, i, i % 2 ? MOST : -MOST);
    there_and_back(s, 29);

    /* lengths: a byte, a coefficient, a block more or less; coefficients in place of bytes; the other format's */
    memset(blocks, 0, sizeof blocks);
    const size_t other = slice_len((struct shape){s.macroblocks, s.chroma == CART_422 ? CART_444 : CART_422, s.scan});
    const size_t wrong[] = {len + 1, len - 1, len + 4, len - 4, len + 256, len - 256, len / 4, other, 0};
    for (size_t i = 0; i < sizeof wrong / sizeof *wrong; i++) {
        EXPECT(encode_slice(s, blocks, wrong[i], 0).result == CART_LENGTH);
        EXPECT(decode_slice(s, none, wrong[i]).result == CART_LENGTH);
    }
}

/* Every coefficient as far from zero as can be, and the DCs of each component + and - in turn, so that their differences are
   too. This is more than 8 x blocks x (2b + 1) bytes: crates/slice/must-fail/bytes_bound.edit. */
static void test_longest_codes(void)
{
    const struct shape s = {CART_MAX_MACROBLOCKS, CART_444, CART_PROGRESSIVE};
    about("slices, the longest known codes");
    /* each component has 4 blocks of every macroblock, so that the turn of all blocks is that of its own */
    for (size_t i = 0; i < LONGEST / 4; i++)
        cart_put(blocks, i, i / 64 % 2 ? -MOST : MOST);
    struct encoded e = encode_slice(s, blocks, LONGEST, 0);
    EXPECT(e.result == CART_ROOM && e.needed == 3 * 15108);
    EXPECT(e.needed > 8 * 96 * (2 * 29 + 1) && e.needed <= CART_SLICE_CODE_LEN(s.macroblocks, s.chroma, 29));
    there_and_back(s, 29);
}

static void test_selectors_and_limits(void)
{
    static const uint64_t no_chroma[] = {0, 1, 4, UINT64_C(1) << 32 | 2, UINT64_MAX};
    static const uint64_t no_scan[] = {2, 3, UINT64_C(1) << 32, UINT64_MAX};
    static const uint64_t no_macroblocks[] = {0, 9, UINT64_C(1) << 53, UINT64_C(1) << 56, UINT64_C(1) << 63, UINT64_MAX};
    about("slices, selectors and limits");
    memset(blocks, 0, sizeof blocks);
    for (size_t i = 0; i < sizeof no_chroma / sizeof *no_chroma; i++) {
        struct shape s = {1, no_chroma[i], 0};
        EXPECT(encode_slice(s, blocks, 2048, 64).result == CART_SELECTOR);
        EXPECT(decode_slice(s, none, 2048).result == CART_SELECTOR);
    }
    for (size_t i = 0; i < sizeof no_scan / sizeof *no_scan; i++) {
        struct shape s = {1, CART_422, no_scan[i]};
        EXPECT(encode_slice(s, blocks, 2048, 64).result == CART_SELECTOR);
        EXPECT(decode_slice(s, none, 2048).result == CART_SELECTOR);
    }
    for (size_t i = 0; i < sizeof no_macroblocks / sizeof *no_macroblocks; i++)
        for (size_t len = 0; len <= LONGEST; len += 2048) {
            struct shape s = {no_macroblocks[i], CART_422, 0};
            EXPECT(encode_slice(s, blocks, len, 64).result == CART_LIMIT);
            EXPECT(decode_slice(s, none, len).result == CART_LIMIT);
        }
}

static void test_range(void)
{
    static const int32_t out[] = {MOST + 1, -MOST - 1, INT32_MAX, INT32_MIN};
    const struct shape s = {8, CART_444, CART_INTERLACED};
    /* the first and last coefficient of each component of the first and the last macroblock */
    static const size_t of_macroblock[] = {0, 255, 256, 511, 512, 767};
    about("slices, range");
    for (size_t i = 0; i < sizeof out / sizeof *out; i++)
        for (size_t k = 0; k < sizeof of_macroblock / sizeof *of_macroblock; k++)
            for (size_t macroblock = 0; macroblock < 8; macroblock += 7) {
                memset(blocks, 0, sizeof blocks);
                cart_put(blocks, 768 * macroblock + of_macroblock[k], out[i]);
                EXPECT(encode_slice(s, blocks, LONGEST, sizeof code).result == CART_VALUE);
                EXPECT(encode_slice(s, blocks, LONGEST, 0).result == CART_VALUE);
            }
}

static void test_order(void)
{
    const struct bytes too_long[3] = {{zeros, sizeof zeros}, {NULL, 0}, {NULL, 0}};
    about("slices, order of refusals");
    memset(blocks, 0x7f, sizeof blocks);
    EXPECT(encode_slice((struct shape){9, 4, 2}, blocks, 1, 0).result == CART_SELECTOR);
    EXPECT(encode_slice((struct shape){9, CART_422, 0}, blocks, 1, 0).result == CART_LIMIT);
    EXPECT(encode_slice((struct shape){1, CART_422, 0}, blocks, 1, 0).result == CART_LENGTH);
    EXPECT(encode_slice((struct shape){1, CART_422, 0}, blocks, 2048, 0).result == CART_VALUE);
    EXPECT(decode_slice((struct shape){9, 4, 2}, too_long, 1).result == CART_SELECTOR);
    EXPECT(decode_slice((struct shape){1, CART_422, 0}, too_long, 1).result == CART_LIMIT);
    EXPECT(decode_slice((struct shape){1, CART_422, 0}, none, 1).result == CART_LENGTH);
}

/* Payloads of 4 blocks that are refused. */
static const struct {
    uint32_t refusal;
    size_t len;
    uint8_t payload[8];
} refused[] = {
    {CART_SHORT, 0, {0}},
    {CART_SHORT, 1, {0x80}},
    {CART_CODEWORD, 5, {0, 0, 0, 0, 0}},
    {CART_OVERRUN, 4, {0x82, 0x30, 0x08, 0x00}},
    {CART_RANGE, 7, {0, 0, 0, 0x40, 0, 0, 0x20}},
};

static void test_refused_payloads(void)
{
    /* in 4:4:4 every component of a macroblock has 4 blocks */
    const struct shape s = {1, CART_444, 0};
    static const uint64_t components[3] = {CART_Y, CART_CB, CART_CR};
    static const uint8_t zero[] = {0x82, 0x30};
    const struct bytes good = {zero, sizeof zero};
    about("slices, payloads that are not refused");
    EXPECT(decode_slice(s, (struct bytes[]){good, good, good}, slice_len(s)).result == CART_DONE);
    for (size_t i = 0; i < sizeof refused / sizeof *refused; i++)
        for (size_t at = 0; at < 3; at++) {
            struct bytes p[3] = {good, good, good};
            about("slices, refused payload %zu in component %zu", i, at);
            p[at] = (struct bytes){refused[i].payload, refused[i].len};
            struct decoded d = decode_slice(s, p, slice_len(s));
            EXPECT(d.result == refused[i].refusal && d.component == components[at]);
            /* bad components after it change nothing: the first one is named */
            for (size_t after = at + 1; after < 3; after++)
                p[after] = (struct bytes){zeros, 5};
            d = decode_slice(s, p, slice_len(s));
            EXPECT(d.result == refused[i].refusal && d.component == components[at]);
        }
}

static void test_long_payloads(void)
{
    static uint8_t y[CART_MAX_PAYLOAD + 1] = {0x82, 0x30}, c[CART_MAX_PAYLOAD + 1] = {0x82, 0x00};
    const struct shape s = {1, CART_422, 0};
    about("slices, the longest payloads");
    struct bytes p[3] = {{y, CART_MAX_PAYLOAD}, {c, CART_MAX_PAYLOAD}, {c, CART_MAX_PAYLOAD}};
    struct decoded d = decode_slice(s, p, 2048);
    EXPECT(d.result == CART_DONE && d.bits[0] == 12 && d.bits[1] == 10 && d.bits[2] == 10);
    for (int i = 0; i < 3; i++) {
        p[i].len = CART_MAX_PAYLOAD + 1;
        EXPECT(decode_slice(s, p, 2048).result == CART_LIMIT);
        p[i].len = CART_MAX_PAYLOAD;
    }
}

/* What each selector means: the blocks that a macroblock has, and where the second scanned coefficient lies. */
static void test_meanings(void)
{
    static const struct {
        struct shape shape;
        size_t blocks, second;
        uint8_t chroma[2]; /* the code of a chroma component that is all zero: 2 blocks, or 4 */
    } meanings[] = {
        {{1, CART_422, CART_PROGRESSIVE}, 8, 1, {0x82, 0x00}},
        {{1, CART_422, CART_INTERLACED}, 8, 8, {0x82, 0x00}},
        {{1, CART_444, CART_PROGRESSIVE}, 12, 1, {0x82, 0x30}},
        {{1, CART_444, CART_INTERLACED}, 12, 8, {0x82, 0x30}},
    };
    /* 4 blocks: a 1 behind the DCs, which are zero */
    static const uint8_t y[] = {0x82, 0x3c};
    for (size_t i = 0; i < sizeof meanings / sizeof *meanings; i++) {
        const struct bytes c = {meanings[i].chroma, 2};
        const size_t len = CART_COEFFS_LEN(meanings[i].blocks);
        about("slices, the meaning of selectors %zu", i);
        struct decoded d = decode_slice(meanings[i].shape, (struct bytes[]){{y, sizeof y}, c, c}, len);
        EXPECT(d.result == CART_DONE && cart_get(d.list, meanings[i].second) == 1);
    }
}

void test_slices(void)
{
    static const uint64_t chromas[] = {CART_422, CART_444}, scans[] = {CART_PROGRESSIVE, CART_INTERLACED};
    for (uint64_t macroblocks = 1; macroblocks <= CART_MAX_MACROBLOCKS; macroblocks++)
        for (size_t f = 0; f < 2; f++)
            for (size_t n = 0; n < 2; n++) {
                test_shape((struct shape){macroblocks, chromas[f], scans[n]});
                test_slice_scan((struct shape){macroblocks, chromas[f], scans[n]});
            }
    test_meanings();
    test_longest_codes();
    test_selectors_and_limits();
    test_range();
    test_order();
    test_refused_payloads();
    test_long_payloads();
}
