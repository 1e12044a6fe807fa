/* The weight matrices and cart_qscale. */
#include "tests.h"

/* Document 01's tables are told by their sums, each weight times its place from 1 on. */
static const struct {
    const char *name;
    uint32_t luma, chroma;
} pairs[MATRIX_PAIRS] = {
    {"flat", 8320, 8320},
    {"perceptual", 19096, 23888},
    {"signature_proxy", 104207, 106223},
    {"signature_lt", 35727, 35727},
    {"signature_standard", 19738, 19738},
    {"signature_hq", 9571, 9571},
};

static uint32_t sum(const uint8_t *weights)
{
    uint32_t s = 0;
    for (uint32_t i = 0; i < WEIGHTS; i++)
        s += (i + 1) * weights[i];
    return s;
}

static void test_flags(const uint8_t *luma, const uint8_t *chroma, bool valid, bool load_luma, bool load_chroma)
{
    struct matrix_flags f = matrix_flags(luma, chroma);
    EXPECT(f.valid == valid && f.load_luma == load_luma && f.load_chroma == load_chroma);
}

static void test_pairs(void)
{
    for (unsigned i = 0; i < MATRIX_PAIRS; i++) {
        about("%s", pairs[i].name);
        struct matrices m = matrix_pair(i);
        EXPECT(m.result == CART_DONE && sum(m.luma) == pairs[i].luma && sum(m.chroma) == pairs[i].chroma);
        test_flags(m.luma, m.chroma, 1, pairs[i].luma != pairs[0].luma, pairs[i].luma != pairs[i].chroma);
    }
}

static bool blended(uint64_t number, const uint8_t *perceptual, const uint8_t *weights)
{
    for (size_t i = 0; i < WEIGHTS; i++)
        if (weights[i] != ((8 - number) * 4 + number * perceptual[i] + 4) / 8)
            return false;
    return true;
}

static void test_blends(void)
{
    static const uint64_t refused[] = {0, 9, UINT64_C(1) << 32 | 1, UINT64_MAX};
    uint8_t luma[WEIGHTS], chroma[WEIGHTS];
    cart_perceptual(luma, chroma);
    for (uint64_t number = 1; number <= 8; number++) {
        about("blend %d", (int)number);
        struct matrices m = blend(number);
        EXPECT(m.result == CART_DONE && blended(number, luma, m.luma) && blended(number, chroma, m.chroma));
    }
    for (size_t i = 0; i < sizeof refused / sizeof *refused; i++) {
        about("no blend %zu", i);
        EXPECT(blend(refused[i]).result == CART_SELECTOR);
    }
}

/* One weight of a flat pair is changed, at each place of either matrix. */
static void test_valid(void)
{
    static const uint8_t weights[] = {0, 1, 2, 3, 63, 64, 255};
    for (size_t i = 0; i < sizeof weights; i++)
        for (size_t place = 0; place < WEIGHTS; place++) {
            bool valid = weights[i] >= 2 && weights[i] <= 63;
            uint8_t luma[WEIGHTS], chroma[WEIGHTS];
            about("weight %d at place %zu", weights[i], place);
            cart_flat(luma, chroma);
            chroma[place] = weights[i];
            test_flags(luma, chroma, valid, 0, 1);
            luma[place] = weights[i];
            test_flags(luma, chroma, valid, 1, 0);
            chroma[place] = 4;
            test_flags(luma, chroma, valid, 1, 1);
        }
}

static void test_qscale(void)
{
    for (unsigned index = 0; index <= UINT8_MAX; index++) {
        about("qscale %u", index);
        EXPECT(qscale((uint8_t)index) == (index <= 128 ? index : 128 + 4 * (index - 128)));
    }
}

void test_matrices(void)
{
    test_pairs();
    test_blends();
    test_valid();
    test_qscale();
}
