/* cart_encode_alpha and cart_decode_alpha. */
#include "tests.h"

static uint16_t samples[CART_MAX_SAMPLES + 1];
static uint8_t code[CART_ALPHA_CODE_LEN(CART_ALPHA_16, CART_MAX_SAMPLES)], payload[CART_MAX_PAYLOAD + 1];

/* Encodes the samples with room for any, with just enough and with a byte less, and decodes the code. Gives its bits. */
static uint64_t there_and_back(uint64_t kind, size_t n)
{
    struct encoded e = encode_alpha(kind, samples, n, CART_ALPHA_CODE_LEN(kind, n));
    uint64_t bytes = e.bytes[0], bits = e.bits[0];
    EXPECT(e.result == CART_DONE && bits <= CART_ALPHA_CODE_BITS(kind, n));
    memcpy(code, e.code, bytes);
    e = encode_alpha(kind, samples, n, bytes);
    EXPECT(e.result == CART_DONE && e.bytes[0] == bytes && e.bits[0] == bits && memcmp(e.code, code, bytes) == 0);
    if (bytes > 0) {
        e = encode_alpha(kind, samples, n, bytes - 1);
        EXPECT(e.result == CART_ROOM && e.needed == bytes);
    }
    struct decoded d = decode_alpha(kind, code, bytes, n);
    EXPECT(d.result == CART_DONE && d.bits[0] == bits && memcmp(d.list, samples, n * sizeof *samples) == 0);
    return bits;
}

/* Document 01, "Bits written out": n samples that are all the same, and their code. */
static const struct {
    uint64_t kind;
    size_t n;
    uint16_t sample;
    uint64_t bytes, bits;
    uint8_t code[4];
} rows[] = {
    {CART_ALPHA_16, 1, 0, 2, 9, {0x00, 0x80}},
    {CART_ALPHA_16, 1, 65535, 3, 18, {0x80, 0x00, 0x40}},
    {CART_ALPHA_8, 1, 7, 1, 6, {0x74}},
    {CART_ALPHA_8, 1, 8, 2, 10, {0x84, 0xc0}},
    {CART_ALPHA_8, 1, 255, 2, 10, {0x80, 0x40}},
    {CART_ALPHA_8, 16, 0, 2, 10, {0x03, 0xc0}},
    {CART_ALPHA_8, 17, 0, 3, 21, {0x00, 0x00, 0x80}},
    {CART_ALPHA_8, 2049, 0, 4, 31, {0x00, 0x3f, 0xfc, 0x02}},
};

static void fill(size_t n, uint16_t sample)
{
    for (size_t i = 0; i < n; i++)
        samples[i] = sample;
}

static void test_rows(void)
{
    for (size_t i = 0; i < sizeof rows / sizeof *rows; i++) {
        about("alpha, row %zu", i);
        fill(rows[i].n, rows[i].sample);
        EXPECT(there_and_back(rows[i].kind, rows[i].n) == rows[i].bits);
        EXPECT(memcmp(code, rows[i].code, rows[i].bytes) == 0);
    }
}

static const struct {
    uint32_t refusal;
    uint64_t kind;
    size_t n, len;
    uint8_t payload[3];
} refused[] = {
    {CART_SHORT, CART_ALPHA_8, 1, 0, {0}},
    {CART_SHORT, CART_ALPHA_8, 2, 2, {0x74, 0x00}},       /* 7, 8 without the last run, as FFmpeg writes it */
    {CART_LONG_RUN, CART_ALPHA_8, 20, 3, {0x00, 0x00, 0x78}},
    {CART_LONG_RUN, CART_ALPHA_8, 5, 3, {0x00, 0x00, 0x78}}, /* a run of 16 would also pass the last sample */
    {CART_ALPHA_OVERRUN, CART_ALPHA_8, 1, 2, {0x70, 0x40}},
    {CART_TAIL, CART_ALPHA_8, 1, 2, {0x74, 0x00}},
    {CART_TAIL, CART_ALPHA_8, 0, 1, {0x00}},
    {CART_TAIL, CART_ALPHA_16, 0, 1, {0xff}},
    {CART_PADDING, CART_ALPHA_8, 1, 1, {0x75}},
    {CART_PADDING, CART_ALPHA_16, 1, 2, {0x00, 0x81}},
};

static void test_refused_payloads(void)
{
    for (size_t i = 0; i < sizeof refused / sizeof *refused; i++) {
        about("alpha, refused payload %zu", i);
        EXPECT(decode_alpha(refused[i].kind, refused[i].payload, refused[i].len, refused[i].n).result == refused[i].refusal);
    }
}

static void test_every_kind(uint64_t kind)
{
    static const size_t counts[] = {0, 1, 2, 16, 17, 2047, 2048, 2049, 4096, CART_MAX_SAMPLES - 1, CART_MAX_SAMPLES};
    uint32_t most = kind == CART_ALPHA_8 ? 255 : 65535;
    for (size_t i = 0; i < sizeof counts / sizeof *counts; i++) {
        size_t n = counts[i];
        about("alpha, kind %d, %zu samples", (int)kind, n);
        fill(n, 0);
        there_and_back(kind, n);
        fill(n, (uint16_t)most);
        there_and_back(kind, n);
        for (size_t k = 0; k < n; k++)
            samples[k] = (uint16_t)(any_number() & most);
        there_and_back(kind, n);
        /* runs, and small steps */
        for (size_t k = 1; k < n; k++)
            samples[k] = any_number() % 8 ? samples[k - 1] : (uint16_t)((samples[k - 1] + any_number() % 5) & most);
        there_and_back(kind, n);
        /* steps that are never small, and no runs: the bound is met */
        for (size_t k = 0; k < n; k++)
            samples[k] = (uint16_t)(k % 2 ? most / 4 : most - most / 4);
        EXPECT(there_and_back(kind, n) == CART_ALPHA_CODE_BITS(kind, n));
    }
}

static void test_limits(void)
{
    static const uint64_t no_kind[] = {0, 3, UINT64_C(1) << 32 | 1, UINT64_MAX}, kinds[] = {CART_ALPHA_8, CART_ALPHA_16};
    about("alpha, limits");
    fill(CART_MAX_SAMPLES + 1, 0);
    memset(payload, 0, sizeof payload);
    for (size_t i = 0; i < sizeof no_kind / sizeof *no_kind; i++) {
        EXPECT(encode_alpha(no_kind[i], samples, 1, 8).result == CART_SELECTOR);
        EXPECT(decode_alpha(no_kind[i], payload, 1, 1).result == CART_SELECTOR);
    }
    for (size_t i = 0; i < sizeof kinds / sizeof *kinds; i++) {
        uint64_t kind = kinds[i];
        EXPECT(encode_alpha(kind, samples, CART_MAX_SAMPLES + 1, sizeof code).result == CART_LIMIT);
        EXPECT(decode_alpha(kind, payload, 1, CART_MAX_SAMPLES + 1).result == CART_LIMIT);
        EXPECT(decode_alpha(kind, payload, CART_MAX_PAYLOAD + 1, 1).result == CART_LIMIT);
        EXPECT(decode_alpha(kind, payload, CART_MAX_PAYLOAD, 0).result == CART_TAIL);
        EXPECT(encode_alpha(kind, NULL, 0, 0).result == CART_DONE);
        EXPECT(decode_alpha(kind, NULL, 0, 0).result == CART_DONE);
    }
}

static void test_range_and_order(void)
{
    static const size_t places[] = {0, 1, CART_MAX_SAMPLES - 1};
    about("alpha, range and order of refusals");
    for (size_t i = 0; i < sizeof places / sizeof *places; i++) {
        fill(CART_MAX_SAMPLES, 0);
        samples[places[i]] = 256;
        EXPECT(encode_alpha(CART_ALPHA_8, samples, CART_MAX_SAMPLES, sizeof code).result == CART_VALUE);
        EXPECT(encode_alpha(CART_ALPHA_8, samples, CART_MAX_SAMPLES, 0).result == CART_VALUE);
        EXPECT(encode_alpha(CART_ALPHA_16, samples, CART_MAX_SAMPLES, sizeof code).result == CART_DONE);
        samples[places[i]] = 255;
        EXPECT(encode_alpha(CART_ALPHA_8, samples, CART_MAX_SAMPLES, sizeof code).result == CART_DONE);
    }
    fill(CART_MAX_SAMPLES + 1, 65535);
    EXPECT(encode_alpha(3, samples, CART_MAX_SAMPLES + 1, 0).result == CART_SELECTOR);
    EXPECT(encode_alpha(CART_ALPHA_8, samples, CART_MAX_SAMPLES + 1, 0).result == CART_LIMIT);
    EXPECT(encode_alpha(CART_ALPHA_8, samples, 1, 0).result == CART_VALUE);
    EXPECT(encode_alpha(CART_ALPHA_16, samples, 1, 0).result == CART_ROOM);
    EXPECT(decode_alpha(3, payload, CART_MAX_PAYLOAD + 1, CART_MAX_SAMPLES + 1).result == CART_SELECTOR);
    EXPECT(decode_alpha(CART_ALPHA_8, payload, CART_MAX_PAYLOAD + 1, CART_MAX_SAMPLES + 1).result == CART_LIMIT);
}

void test_alpha(void)
{
    test_rows();
    test_refused_payloads();
    test_every_kind(CART_ALPHA_8);
    test_every_kind(CART_ALPHA_16);
    test_limits();
    test_range_and_order();
}
