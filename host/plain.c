/* The test of cart_plain.h, which is not proved. The last line is 'N passed, M failed'. */
#include <cart_plain.h>

#include "guarded/expect.h"

#include <string.h>

/* ---- names */

static void test_refusal_names(void)
{
    /* at document 01's numbers */
    static const char *const names[14] = {
        "done",
        "a count or a payload's length is outside the limits",
        "the list is not as long as its blocks are",
        "no room for the code",
        "a value to encode is out of range",
        "the bits run out",
        "a bad codeword",
        "a run passes the last coefficient",
        "a coefficient is out of range",
        "a long alpha run that should be a short one",
        "an alpha run passes the last sample",
        "more than 7 bits are left after alpha",
        "a 1 is left after alpha",
        "an unknown selector",
    };
    for (uint32_t number = 0; number < 14; number++) {
        about("the name of refusal %d", (int)number);
        EXPECT(strcmp(cart_refusal_name(number), names[number]) == 0);
    }
    about("the names of no refusals");
    EXPECT(strcmp(cart_refusal_name(14), "no refusal has this number") == 0);
    EXPECT(strcmp(cart_refusal_name(UINT32_MAX), "no refusal has this number") == 0);
}

static void test_component_names(void)
{
    about("the names of components");
    EXPECT(strcmp(cart_component_name(0), "no component") == 0);
    EXPECT(strcmp(cart_component_name(1), "Y") == 0);
    EXPECT(strcmp(cart_component_name(2), "Cb") == 0);
    EXPECT(strcmp(cart_component_name(3), "Cr") == 0);
    EXPECT(strcmp(cart_component_name(4), "no component has this number") == 0);
    EXPECT(strcmp(cart_component_name(UINT64_C(1) << 32 | 1), "no component has this number") == 0);
    EXPECT(strcmp(cart_component_name(UINT64_MAX), "no component has this number") == 0);
}

/* ---- coefficients */

static const struct {
    int32_t value;
    uint8_t bytes[4];
} coefficients[] = {
    {0, {0, 0, 0, 0}},
    {-1, {0xff, 0xff, 0xff, 0xff}},
    {INT32_MAX, {0xff, 0xff, 0xff, 0x7f}},
    {INT32_MIN, {0, 0, 0, 0x80}},
    {INT32_MIN + 1, {0x01, 0, 0, 0x80}},
    {0x12345678, {0x78, 0x56, 0x34, 0x12}},
    {-0x12345678, {0x88, 0xa9, 0xcb, 0xed}},
    {0x80, {0x80, 0, 0, 0}},
    {0x8000, {0, 0x80, 0, 0}},
    {0x800000, {0, 0, 0x80, 0}},
    {-CART_MAX_COEFFICIENT, {0x01, 0, 0, 0xe0}},
    {CART_MAX_COEFFICIENT, {0xff, 0xff, 0xff, 0x1f}},
};

static void test_coefficients(void)
{
    enum { PLACES = 3, OLD = 0x5a };
    for (size_t i = 0; i < sizeof coefficients / sizeof *coefficients; i++)
        for (size_t place = 0; place < PLACES; place++) {
            uint8_t list[4 * PLACES], wanted[4 * PLACES];
            about("coefficient %zu at place %zu", i, place);
            memset(list, OLD, sizeof list);
            memset(wanted, OLD, sizeof wanted);
            memcpy(wanted + 4 * place, coefficients[i].bytes, 4);
            cart_put(list, place, coefficients[i].value);
            EXPECT(memcmp(list, wanted, sizeof list) == 0);
            EXPECT(cart_get(wanted, place) == coefficients[i].value);
        }
}

/* ---- slices */

/* Any two of these exchanged are refused. */
static const struct cart_shape shape = {4, CART_422, CART_INTERLACED};

enum { LEN = CART_SLICE_LEN(4, CART_422), ROOM = CART_SLICE_CODE_LEN(4, CART_422, 29) };

static uint8_t blocks[LEN], out[ROOM], out_plain[ROOM], back[LEN], back_plain[LEN];

/* Many coefficients in Y, fewer in Cb, one in Cr, so that no two numbers of its code are the same. */
static void fill_blocks(void)
{
    memset(blocks, 0, sizeof blocks);
    for (size_t i = 0; i < 4 * 64; i++)
        cart_put(blocks, i, (int32_t)(i % 7) - 3);
    for (size_t i = 4 * 64; i < 5 * 64; i++)
        cart_put(blocks, i, (int32_t)(i % 3) - 1);
    cart_put(blocks, 7 * 64 + 5, -2);
}

static bool all_differ(const uint64_t *numbers, size_t count)
{
    for (size_t i = 0; i < count; i++)
        for (size_t k = i + 1; k < count; k++)
            if (numbers[i] == numbers[k])
                return false;
    return true;
}

static void test_written(void)
{
    uint64_t n[7];
    about("a slice that is written");
    memset(out, 0x5a, sizeof out);
    memset(out_plain, 0x5a, sizeof out_plain);
    uint32_t refusal = cart_encode_slice(4, CART_422, CART_INTERLACED, blocks, LEN, out_plain, ROOM, &n[0], &n[1], &n[2], &n[3],
                                         &n[4], &n[5], &n[6]);
    EXPECT(refusal == CART_DONE && all_differ(n, 7) && n[6] == 0);
    struct cart_slice_written w = cart_write_slice(shape, blocks, LEN, out, ROOM);
    EXPECT(w.refusal == CART_DONE && w.needed == 0);
    EXPECT(w.y_bytes == n[0] && w.cb_bytes == n[1] && w.cr_bytes == n[2]);
    EXPECT(w.y_bits == n[3] && w.cb_bits == n[4] && w.cr_bits == n[5]);
    EXPECT(memcmp(out, out_plain, sizeof out) == 0);

    struct cart_payloads codes = cart_slice_codes(out, &w);
    EXPECT(codes.y == out && codes.y_len == n[0]);
    EXPECT(codes.cb == out + n[0] && codes.cb_len == n[1]);
    EXPECT(codes.cr == out + n[0] + n[1] && codes.cr_len == n[2]);

    about("a slice without room");
    const uint64_t all = n[0] + n[1] + n[2];
    w = cart_write_slice(shape, blocks, LEN, out, (size_t)all - 1);
    EXPECT(w.refusal == CART_ROOM && w.needed == all);
    EXPECT(w.y_bytes == 0 && w.cb_bytes == 0 && w.cr_bytes == 0 && w.y_bits == 0 && w.cb_bits == 0 && w.cr_bits == 0);
    codes = cart_slice_codes(out, &w);
    EXPECT(codes.y_len == 0 && codes.cb_len == 0 && codes.cr_len == 0);
    w = cart_write_slice(shape, blocks, LEN, NULL, 0);
    EXPECT(w.refusal == CART_ROOM && w.needed == all);
    codes = cart_slice_codes(NULL, &w);
    EXPECT(codes.y_len == 0 && codes.cb_len == 0 && codes.cr_len == 0);
    EXPECT(cart_write_slice(shape, blocks, LEN - 1, out, ROOM).refusal == CART_LENGTH);
}

static void test_read(void)
{
    uint64_t component, n[4] = {0};
    about("a slice that is read");
    const struct cart_slice_written w = cart_write_slice(shape, blocks, LEN, out, ROOM);
    const struct cart_payloads codes = cart_slice_codes(out, &w);
    uint32_t refusal = cart_decode_slice(4, CART_422, CART_INTERLACED, out, w.y_bytes, out + w.y_bytes, w.cb_bytes,
                                         out + w.y_bytes + w.cb_bytes, w.cr_bytes, back_plain, LEN, &component, &n[0], &n[1], &n[2]);
    EXPECT(refusal == CART_DONE && all_differ(n, 4) && component == CART_NO_COMPONENT);
    struct cart_slice_read r = cart_read_slice(shape, codes, back, LEN);
    EXPECT(r.refusal == CART_DONE && r.component == CART_NO_COMPONENT);
    EXPECT(r.y_bits == n[0] && r.cb_bits == n[1] && r.cr_bits == n[2]);
    EXPECT(memcmp(back, back_plain, LEN) == 0 && memcmp(back, blocks, LEN) == 0);
    EXPECT(cart_read_slice(shape, codes, back, LEN - 1).refusal == CART_LENGTH);

    about("a slice that is refused");
    struct cart_payloads bad = codes;
    bad.y_len = 0;
    r = cart_read_slice(shape, bad, back, LEN);
    EXPECT(r.refusal == CART_SHORT && r.component == CART_Y && r.y_bits == 0 && r.cb_bits == 0 && r.cr_bits == 0);
    bad = codes;
    bad.cb_len = 0;
    EXPECT(cart_read_slice(shape, bad, back, LEN).component == CART_CB);
    bad = codes;
    bad.cr_len = 0;
    EXPECT(cart_read_slice(shape, bad, back, LEN).component == CART_CR);
}

/* ---- what is left */

static void test_left_over(void)
{
    const uint8_t ends_in_1[] = {0x80, 0x01}, ends_in_0[] = {0xff, 0x00};
    about("what is left over");
    EXPECT(cart_left_over(ends_in_1, 2, 0) == 1);
    EXPECT(cart_left_over(ends_in_1, 2, 8) == 1);
    EXPECT(cart_left_over(ends_in_1, 2, 15) == 1);
    EXPECT(cart_left_over(ends_in_1, 2, 16) == 0);
    EXPECT(cart_left_over(ends_in_1, 1, 0) == 1);
    EXPECT(cart_left_over(ends_in_1, 1, 1) == 0);
    EXPECT(cart_left_over(ends_in_0, 2, 0) == 1);
    EXPECT(cart_left_over(ends_in_0, 2, 7) == 1);
    EXPECT(cart_left_over(ends_in_0, 2, 8) == 0);
    EXPECT(cart_left_over(ends_in_0, 2, 9) == 0);
    EXPECT(cart_left_over(ends_in_0, 1, 7) == 1);
    EXPECT(cart_left_over(ends_in_0, 1, 8) == 0);
    EXPECT(cart_left_over(NULL, 0, 0) == 0);
    /* more than there are */
    EXPECT(cart_left_over(NULL, 0, 1) == 0);
    EXPECT(cart_left_over(ends_in_1, 2, 17) == 0);
    EXPECT(cart_left_over(ends_in_1, 2, UINT64_MAX) == 0);

    /* all coefficients are there, so that nothing behind them is read */
    about("what is left over behind a block");
    uint8_t list[CART_COEFFS_LEN(1)], code[CART_CODE_LEN(1, 1) + 2];
    uint64_t bytes, bits, read;
    for (size_t i = 0; i < 64; i++)
        cart_put(list, i, 1);
    EXPECT(cart_encode(1, list, sizeof list, code, sizeof code - 2, &bytes, &bits) == CART_DONE);
    code[bytes] = code[bytes + 1] = 0;
    EXPECT(cart_decode(1, code, bytes + 2, list, sizeof list, &read) == CART_DONE && read == bits);
    EXPECT(cart_left_over(code, bytes + 2, read) == 0);
    code[bytes + 1] = 0x01;
    EXPECT(cart_decode(1, code, bytes + 2, list, sizeof list, &read) == CART_DONE && read == bits);
    EXPECT(cart_left_over(code, bytes + 2, read) == 1);
    EXPECT(cart_left_over(code, bytes, read) == 0);
}

int main(void)
{
    test_refusal_names();
    test_component_names();
    test_coefficients();
    fill_blocks();
    test_written();
    test_read();
    test_left_over();
    return expect_report();
}
