/* cart_encode and cart_decode. */
#include "tests.h"

enum { MOST = CART_MAX_COEFFICIENT, LONGEST = CART_COEFFS_LEN(CART_MAX_BLOCKS) };

static uint8_t list[LONGEST + 1], code[CART_CODE_LEN(CART_MAX_BLOCKS, 29)], payload[CART_MAX_PAYLOAD + 1];

/* Document 01, "Bits written out": coefficients, their code and its bits. */
static const struct {
    uint64_t blocks;
    struct {
        size_t place;
        int32_t value;
    } set[3];
    uint64_t bytes, bits;
    uint8_t code[7];
} rows[] = {
    {1, {{0, 0}}, 1, 6, {0x80}},
    {1, {{0, 1}}, 1, 6, {0x88}},
    {1, {{0, -1}}, 1, 6, {0x84}},
    {1, {{0, 15}}, 1, 6, {0xf8}},
    {1, {{0, -16}}, 1, 6, {0xfc}},
    {1, {{0, 16}}, 1, 8, {0x40}},
    {2, {{0, 0}}, 2, 10, {0x82, 0x00}},
    {3, {{1, -1}, {2, -2}}, 2, 14, {0x82, 0x50}},
    {1, {{1, 1}}, 2, 9, {0x83, 0x00}},
    {1, {{1, -1}}, 2, 9, {0x83, 0x80}},
    {1, {{3, 1}}, 2, 11, {0x81, 0xc0}},
    {1, {{63, 1}}, 3, 19, {0x80, 0x1f, 0xc0}},
    {1, {{0, MOST}}, 7, 56, {0, 0, 0, 0x40, 0, 0, 0x1e}},
};

static void test_rows(void)
{
    for (size_t i = 0; i < sizeof rows / sizeof *rows; i++) {
        size_t len = CART_COEFFS_LEN(rows[i].blocks);
        about("coefficients, row %zu", i);
        memset(list, 0, len);
        for (size_t k = 0; k < 3; k++)
            if (rows[i].set[k].value != 0)
                cart_put(list, rows[i].set[k].place, rows[i].set[k].value);
        for (uint64_t room = 0; room < rows[i].bytes; room++) {
            struct encoded e = encode(rows[i].blocks, list, len, room);
            EXPECT(e.result == CART_ROOM && e.needed == rows[i].bytes);
        }
        struct encoded e = encode(rows[i].blocks, list, len, rows[i].bytes);
        EXPECT(e.result == CART_DONE && e.bytes[0] == rows[i].bytes && e.bits[0] == rows[i].bits);
        EXPECT(memcmp(e.code, rows[i].code, rows[i].bytes) == 0);
        struct decoded d = decode(rows[i].blocks, rows[i].code, rows[i].bytes, len);
        EXPECT(d.result == CART_DONE && d.bits[0] == rows[i].bits && memcmp(d.list, list, len) == 0);
    }
}

static const struct {
    uint32_t refusal;
    uint64_t blocks;
    size_t len;
    uint8_t payload[7];
} refused[] = {
    {CART_SHORT, 1, 0, {0}},
    {CART_SHORT, 1, 4, {0, 0, 0, 0}},
    {CART_CODEWORD, 1, 5, {0, 0, 0, 0, 0}},
    {CART_SHORT, 1, 4, {0, 0, 0, 0x10}},
    {CART_CODEWORD, 1, 4, {0, 0, 0, 0x08}},
    {CART_OVERRUN, 1, 3, {0x80, 0x08, 0x00}},
    {CART_RANGE, 1, 7, {0, 0, 0, 0x40, 0, 0, 0x20}},
    {CART_SHORT, 2, 1, {0x80}},
    {CART_SHORT, 32, 0, {0}},
};

static void test_refused_payloads(void)
{
    for (size_t i = 0; i < sizeof refused / sizeof *refused; i++) {
        about("coefficients, refused payload %zu", i);
        struct decoded d = decode(refused[i].blocks, refused[i].payload, refused[i].len, CART_COEFFS_LEN(refused[i].blocks));
        EXPECT(d.result == refused[i].refusal);
    }
}

/* Encodes the list with room for any, with just enough and with a byte less, and decodes the code. */
static void there_and_back(uint64_t blocks, unsigned b)
{
    size_t len = CART_COEFFS_LEN(blocks);
    struct encoded e = encode(blocks, list, len, CART_CODE_LEN(blocks, b));
    uint64_t bytes = e.bytes[0], bits = e.bits[0];
    EXPECT(e.result == CART_DONE);
    memcpy(code, e.code, bytes);
    e = encode(blocks, list, len, bytes);
    EXPECT(e.result == CART_DONE && e.bytes[0] == bytes && e.bits[0] == bits && memcmp(e.code, code, bytes) == 0);
    if (bytes > 0) {
        e = encode(blocks, list, len, bytes - 1);
        EXPECT(e.result == CART_ROOM && e.needed == bytes);
    }
    struct decoded d = decode(blocks, code, bytes, len);
    EXPECT(d.result == CART_DONE && d.bits[0] == bits && memcmp(d.list, list, len) == 0);
}

static void test_every_count(void)
{
    for (uint64_t blocks = 0; blocks <= CART_MAX_BLOCKS; blocks++) {
        size_t len = CART_COEFFS_LEN(blocks);
        about("coefficients, %d blocks", (int)blocks);
        memset(list, 0, sizeof list);
        EXPECT(encode(blocks, list, len, 5).bits[0] == zero_bits(blocks));
        there_and_back(blocks, 0);
        for (unsigned b = 0; b <= 29; b += 1 + any_number() % 4) {
            any_coefficients(list, len / 4, b);
            there_and_back(blocks, b);
        }
        for (size_t i = 0; i < len / 4; i++)
            cart_put(list, i, i % 2 ? MOST : -MOST);
        there_and_back(blocks, 29);
    }
}

/* As test_longest_codes of slices.c, of one component: more-edits/cart/code_bound.edit. */
static void test_longest_code(void)
{
    about("coefficients, the longest known code");
    /* an even number of blocks, so that those of each scanned place begin alike */
    for (size_t i = 0; i < LONGEST / 4; i++)
        cart_put(list, i, i % 2 ? -MOST : MOST);
    struct encoded e = encode(CART_MAX_BLOCKS, list, LONGEST, 0);
    EXPECT(e.result == CART_ROOM && e.needed == 15108);
    EXPECT(e.needed > 8 * 32 * (2 * 29 + 1) && e.needed <= CART_CODE_LEN(CART_MAX_BLOCKS, 29));
}

static void test_limits(void)
{
    static const uint64_t too_many[] = {33, 64, UINT64_C(1) << 32, UINT64_C(1) << 56, UINT64_C(1) << 63, UINT64_MAX};
    about("coefficients, limits");
    memset(list, 0, sizeof list);
    memset(payload, 0, sizeof payload);
    for (size_t i = 0; i < sizeof too_many / sizeof *too_many; i++)
        for (size_t len = 0; len <= LONGEST; len += 256) {
            EXPECT(encode(too_many[i], list, len, 8).result == CART_LIMIT);
            EXPECT(decode(too_many[i], payload, 1, len).result == CART_LIMIT);
        }

    /* the longest payload, and one more; no blocks read nothing of either */
    payload[0] = 0x80;
    EXPECT(decode(1, payload, CART_MAX_PAYLOAD, 256).result == CART_DONE);
    EXPECT(decode(1, payload, CART_MAX_PAYLOAD, 256).bits[0] == 6);
    EXPECT(decode(1, payload, CART_MAX_PAYLOAD + 1, 256).result == CART_LIMIT);
    EXPECT(decode(0, payload, CART_MAX_PAYLOAD, 0).result == CART_DONE);
    EXPECT(decode(0, payload, CART_MAX_PAYLOAD, 0).bits[0] == 0);
    EXPECT(decode(0, payload, CART_MAX_PAYLOAD + 1, 0).result == CART_LIMIT);
    EXPECT(decode(0, NULL, 0, 0).result == CART_DONE);
    EXPECT(encode(0, NULL, 0, 0).result == CART_DONE);

    /* zero bytes behind a code are not read, however many: where the Rust's own bit layer differs */
    EXPECT(decode(1, payload, 5, 256).bits[0] == 6);
}

static void test_lengths(void)
{
    about("coefficients, lengths");
    memset(list, 0, sizeof list);
    for (uint64_t blocks = 0; blocks <= CART_MAX_BLOCKS; blocks++) {
        const size_t right = CART_COEFFS_LEN(blocks);
        /* a byte or a coefficient more or less; coefficients counted in place of bytes; a block more */
        const size_t wrong[] = {right + 1, right - 1, right + 4, right - 4, right / 4, right + 256, 0};
        for (size_t i = 0; i < sizeof wrong / sizeof *wrong; i++)
            if (wrong[i] != right && wrong[i] <= LONGEST) {
                EXPECT(encode(blocks, list, wrong[i], 8).result == CART_LENGTH);
                EXPECT(decode(blocks, payload, 1, wrong[i]).result == CART_LENGTH);
            }
    }
}

static void test_range(void)
{
    static const int32_t out[] = {MOST + 1, -MOST - 1, INT32_MAX, INT32_MIN};
    static const size_t places[] = {0, 1, 1024, 2047};
    about("coefficients, range");
    for (size_t i = 0; i < sizeof out / sizeof *out; i++)
        for (size_t k = 0; k < sizeof places / sizeof *places; k++) {
            memset(list, 0, sizeof list);
            cart_put(list, places[k], out[i]);
            EXPECT(encode(32, list, LONGEST, sizeof code).result == CART_VALUE);
            EXPECT(encode(32, list, LONGEST, 0).result == CART_VALUE);
        }
}

static void test_order(void)
{
    about("coefficients, order of refusals");
    memset(list, 0x7f, sizeof list);
    EXPECT(encode(33, list, 1, 0).result == CART_LIMIT);
    EXPECT(encode(1, list, 255, 0).result == CART_LENGTH);
    EXPECT(encode(1, list, 256, 0).result == CART_VALUE);
    EXPECT(decode(33, NULL, 0, 1).result == CART_LIMIT);
    EXPECT(decode(1, payload, CART_MAX_PAYLOAD + 1, 1).result == CART_LIMIT);
    EXPECT(decode(1, NULL, 0, 1).result == CART_LENGTH);
}

void test_coefficients(void)
{
    test_rows();
    test_refused_payloads();
    test_every_count();
    test_longest_code();
    test_limits();
    test_lengths();
    test_range();
    test_order();
}
