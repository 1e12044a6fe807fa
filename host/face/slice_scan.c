/* Where the slice functions place each coefficient: document 01, "Slice scan". Every coefficient of a slice is given a value of its
   own, and each component's code is read with cart_decode. */
#include "tests.h"

enum { LONGEST = CART_SLICE_LEN(CART_MAX_MACROBLOCKS, CART_444) };

static uint8_t blocks[LONGEST], code[CART_SLICE_CODE_LEN(CART_MAX_MACROBLOCKS, CART_444, 29)];

/* Scanned place n x B + m x c + b must hold coefficient n of block b in macroblock m; scan_of[natural place] is n, and must be the
   same in all blocks. */
static void test_component(struct shape s, const uint8_t *list, size_t per, size_t first, size_t c, int scan_of[64])
{
    size_t all = s.macroblocks * c, in_place = 0;
    for (size_t n = 0; n < 64; n++)
        for (size_t m = 0; m < s.macroblocks; m++)
            for (size_t b = 0; b < c; b++) {
                size_t from = (size_t)cart_get(list, n * all + m * c + b) - 1, natural = from % 64;
                if (scan_of[natural] < 0)
                    scan_of[natural] = (int)n;
                in_place += from / 64 == m * per + first + b && scan_of[natural] == (int)n;
            }
    EXPECT(in_place == 64 * all);
}

void test_slice_scan(struct shape s)
{
    size_t c = s.chroma == CART_422 ? 2 : 4, per = 4 + 2 * c, len = CART_SLICE_LEN(s.macroblocks, s.chroma);
    const size_t first[3] = {0, 4, 4 + c}, count[3] = {4, c, c};
    int scan_of[64];
    about("slice scan, %d macroblocks, chroma %d, scan %d", (int)s.macroblocks, (int)s.chroma, (int)s.scan);
    for (size_t i = 0; i < 64; i++)
        scan_of[i] = -1;
    for (size_t i = 0; i < len / 4; i++)
        cart_put(blocks, i, (int32_t)i + 1);
    struct encoded e = encode_slice(s, blocks, len, sizeof code);
    memcpy(code, e.code, sizeof code);
    const uint8_t *from = code;
    for (int i = 0; i < 3; i++) {
        uint64_t all = s.macroblocks * count[i];
        struct decoded d = decode(all, from, e.bytes[i], CART_COEFFS_LEN(all));
        EXPECT(d.result == CART_DONE && d.bits[0] == e.bits[i]);
        test_component(s, d.list, per, first[i], count[i], scan_of);
        from += e.bytes[i];
    }
    EXPECT(scan_of[0] == 0 && scan_of[63] == 63);
    EXPECT(scan_of[1] == (s.scan == CART_PROGRESSIVE ? 1 : 2));
    EXPECT(scan_of[8] == (s.scan == CART_PROGRESSIVE ? 2 : 1));
}
