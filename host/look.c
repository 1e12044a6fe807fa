/* look: one call of the coder, with a payload in hexadecimal or values in decimal. For docs/HANDBOOK.md, and for a first look at a
   payload that was refused. */
#include "program.h"

#include <cart_plain.h>
#include <ctype.h>
#include <errno.h>
#include <inttypes.h>
#include <stdio.h>
#include <stdlib.h>
#include <string.h>

const char program[] = "look";

static const char help[] =
    "usage: look read BLOCKS HEX..                        a component's payload: its bits, and the places that are not 0\n"
    "       look write BLOCKS ROOM VALUE..                the first coefficients in scan order, all others 0; into ROOM bytes\n"
    "       look slice MACROBLOCKS CHROMA SCAN Y CB CR    the bits of each payload\n"
    "       look alpha KIND SAMPLES HEX..                 its bits, and the samples as runs\n"
    "       look write-alpha KIND ROOM SAMPLE..           samples into ROOM bytes\n"
    "\n"
    "HEX, Y, CB and CR are bytes in hexadecimal; all else is decimal. docs/HANDBOOK.md has examples.\n"
    "\n"
    "The exit status is 0 where it is done; 1 where it is refused, or where a 1 is left behind the bits that were read; 2\n"
    "where the words make no call, or what is printed cannot be written.\n";

/* One more than each limit, so that what is past it can be tried. */
static uint8_t payload[3][CART_MAX_PAYLOAD + 1], list[CART_SLICE_LEN(CART_MAX_MACROBLOCKS, CART_444)];
static uint16_t samples[CART_MAX_SAMPLES + 1];

static int digits_alone(const char *word)
{
    return *word != '\0' && word[strspn(word, "0123456789")] == '\0';
}

static uint64_t number(const char *word)
{
    errno = 0;
    uint64_t n = strtoull(word, NULL, 10);
    if (!digits_alone(word) || errno == ERANGE)
        fail("%s: a number from 0 to 2^64 - 1 was expected", word);
    return n;
}

/* A number that one of the buffers here is to have. */
static size_t number_here(const char *word, size_t most, const char *what)
{
    uint64_t n = number(word);
    if (n > most)
        fail("%s: at most %zu %s can be tried here", word, most, what);
    return (size_t)n;
}

/* A value that a list can hold, whether or not the coder takes it. */
static long value(const char *word, long least, long most)
{
    errno = 0;
    long n = strtol(word, NULL, 10);
    if (!digits_alone(word + (least < 0 && *word == '-')) || errno == ERANGE || n < least || n > most)
        fail("%s: a value from %ld to %ld was expected", word, least, most);
    return n;
}

static size_t at_most(uint64_t n, size_t most)
{
    return n < most ? n : most;
}

static unsigned digit(char c, const char *word)
{
    const char *digits = "0123456789abcdef", *found = c ? strchr(digits, tolower((unsigned char)c)) : NULL;
    if (!found)
        fail("%.40s: bytes of two hexadecimal digits were expected", word);
    return (unsigned)(found - digits);
}

/* The bytes of some words. */
static size_t hex(int words, char **word, uint8_t *to)
{
    size_t len = 0;
    for (int i = 0; i < words; i++)
        for (const char *c = word[i]; *c; c += 2) {
            if (len == sizeof payload[0])
                fail("at most %zu bytes of a payload can be tried here", sizeof payload[0]);
            to[len] = (uint8_t)(digit(c[0], word[i]) << 4);
            to[len++] |= (uint8_t)digit(c[1], word[i]);
        }
    return len;
}

static int refused(uint32_t refusal)
{
    printf("refused %" PRIu32 ": %s\n", refusal, cart_refusal_name(refusal));
    return 1;
}

static int left_over(const char *whose, const uint8_t *of, size_t len, uint64_t bits)
{
    int left = cart_left_over(of, len, bits);
    if (left)
        printf("something is left behind %s code\n", whose);
    return left;
}

static int wrote(uint32_t refusal, const uint8_t *code, uint64_t bytes, uint64_t bits)
{
    if (refusal == CART_ROOM) {
        printf("refused %" PRIu32 ": %s, which takes %" PRIu64 " bytes\n", refusal, cart_refusal_name(refusal), bytes);
        return 1;
    }
    if (refusal != CART_DONE)
        return refused(refusal);
    for (uint64_t i = 0; i < bytes; i++)
        printf("%02x ", code[i]);
    printf("(%" PRIu64 " bits)\n", bits);
    return 0;
}

static int look_read(int words, char **word)
{
    uint64_t bits, blocks = number(word[0]);
    size_t len = hex(words - 1, word + 1, payload[0]), list_len = CART_COEFFS_LEN(at_most(blocks, CART_MAX_BLOCKS));
    uint32_t refusal = cart_decode(blocks, payload[0], len, list, list_len, &bits);
    if (refusal != CART_DONE)
        return refused(refusal);
    printf("%" PRIu64 " of %zu bits\n", bits, 8 * len);
    for (size_t place = 0; place < list_len / 4; place++)
        if (cart_get(list, place) != 0)
            printf("place %zu is %" PRId32 "\n", place, cart_get(list, place));
    return left_over("the", payload[0], len, bits);
}

static int look_write(int words, char **word)
{
    uint64_t bytes, bits, blocks = number(word[0]);
    size_t list_len = CART_COEFFS_LEN(at_most(blocks, CART_MAX_BLOCKS));
    size_t room = number_here(word[1], sizeof payload[0], "bytes of room");
    for (int i = 2; i < words; i++) {
        if ((size_t)(i - 2) >= list_len / 4)
            fail("these are more values than the blocks have");
        cart_put(list, (size_t)(i - 2), (int32_t)value(word[i], INT32_MIN, INT32_MAX));
    }
    uint32_t refusal = cart_encode(blocks, list, list_len, payload[0], room, &bytes, &bits);
    return wrote(refusal, payload[0], bytes, bits);
}

static int look_slice(int words, char **word)
{
    struct cart_shape shape = {number(word[0]), number(word[1]), number(word[2])};
    size_t len[3], list_len = CART_SLICE_LEN(at_most(shape.macroblocks, CART_MAX_MACROBLOCKS), shape.chroma);
    if (words != 6)
        fail("a slice has three payloads");
    for (int i = 0; i < 3; i++)
        len[i] = hex(1, word + 3 + i, payload[i]);
    struct cart_payloads payloads = {payload[0], len[0], payload[1], len[1], payload[2], len[2]};
    struct cart_slice_read read = cart_read_slice(shape, payloads, list, list_len);
    if (read.component != CART_NO_COMPONENT)
        printf("%s: ", cart_component_name(read.component));
    if (read.refusal != CART_DONE)
        return refused(read.refusal);
    printf("Y %" PRIu64 " of %zu, Cb %" PRIu64 " of %zu, Cr %" PRIu64 " of %zu bits\n", read.y_bits, 8 * len[0], read.cb_bits,
           8 * len[1], read.cr_bits, 8 * len[2]);
    int left = left_over("Y's", payload[0], len[0], read.y_bits);
    left |= left_over("Cb's", payload[1], len[1], read.cb_bits);
    return left | left_over("Cr's", payload[2], len[2], read.cr_bits);
}

static int look_alpha(int words, char **word)
{
    uint64_t bits, kind = number(word[0]);
    size_t n = number_here(word[1], CART_MAX_SAMPLES + 1, "samples"), len = hex(words - 2, word + 2, payload[0]);
    uint32_t refusal = cart_decode_alpha(kind, payload[0], len, samples, n, &bits);
    if (refusal != CART_DONE)
        return refused(refusal);
    printf("%" PRIu64 " of %zu bits\n", bits, 8 * len);
    for (size_t from = 0, to = 0; from < n; from = to) {
        while (to < n && samples[to] == samples[from])
            to++;
        printf("%zu x %u\n", to - from, samples[from]);
    }
    return 0;
}

static int look_write_alpha(int words, char **word)
{
    uint64_t bytes, bits, kind = number(word[0]);
    size_t room = number_here(word[1], sizeof payload[0], "bytes of room");
    if (words - 2 > CART_MAX_SAMPLES + 1)
        fail("at most %d samples can be tried here", CART_MAX_SAMPLES + 1);
    for (int i = 2; i < words; i++)
        samples[i - 2] = (uint16_t)value(word[i], 0, UINT16_MAX);
    uint32_t refusal = cart_encode_alpha(kind, samples, (size_t)(words - 2), payload[0], room, &bytes, &bits);
    return wrote(refusal, payload[0], bytes, bits);
}

int main(int argc, char **argv)
{
    static const struct {
        const char *name;
        int words; /* that it has at least */
        int (*look)(int words, char **word);
    } looks[] = {
        {"read", 1, look_read},     {"write", 2, look_write},
        {"slice", 6, look_slice},   {"alpha", 2, look_alpha},
        {"write-alpha", 2, look_write_alpha},
    };
    begin(argc, argv, help);
    for (size_t i = 0; i < sizeof looks / sizeof *looks; i++)
        if (argc >= 2 && strcmp(argv[1], looks[i].name) == 0 && argc - 2 >= looks[i].words)
            return finish(looks[i].look(argc - 2, argv + 2));
    fail("read BLOCKS HEX.., write BLOCKS ROOM VALUE.., slice MACROBLOCKS CHROMA SCAN Y CB CR, alpha KIND SAMPLES HEX.., "
         "or write-alpha KIND ROOM SAMPLE..; look --help says more");
}
