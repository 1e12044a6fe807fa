/* damage: what of damage, and of a wrong shape, can be seen. Its line of counts is in docs/HANDBOOK.md, and host/damage.sh holds
   the two together. The generator that chooses the bits and its seed are fixed, so that a run can be repeated. */
#include "slices.h"

#include <stdio.h>
#include <stdlib.h>
#include <string.h>

const char program[] = "damage";

static const char help[] =
    "usage: damage bits SLICES FLIPS\n"
    "       damage shapes SLICES\n"
    "\n"
    "Counts what can be seen of damage, or of a wrong shape. SLICES is a file of slices (host/pack.py says what that is), all of\n"
    "which can be read as they are.\n"
    "  bits    FLIPS copies, 1 to 999999, of each slice, with one bit of the payloads of Y, Cb and Cr flipped in each\n"
    "  shapes  each slice in every shape but its own: 1 to 8 macroblocks, both formats, its own scan\n"
    "\n"
    "The exit status is 0; or 2 where the words name no run, the file cannot be used, or what is printed cannot be written.\n";

/* For the largest slice. */
static uint8_t blocks[CART_SLICE_LEN(CART_MAX_MACROBLOCKS, CART_444)];
static uint8_t codes[CART_SLICE_CODE_LEN(CART_MAX_MACROBLOCKS, CART_444, 29)];
static uint8_t copies[3 * CART_MAX_PAYLOAD];

static size_t list_len(struct cart_shape shape)
{
    /* a shape that a file makes up is refused before its length matters */
    return shape.macroblocks > CART_MAX_MACROBLOCKS ? 0 : CART_SLICE_LEN(shape.macroblocks, shape.chroma);
}

static struct cart_slice_read decode(struct cart_shape shape, struct cart_payloads payloads)
{
    return cart_read_slice(shape, payloads, blocks, list_len(shape));
}

/* The slice as it is, which must be one that can be read. */
static struct cart_slice_read decode_right(const struct slices *from, const struct slice *s)
{
    struct cart_slice_read read = decode(s->shape, s->payloads);
    if (read.refusal != CART_DONE)
        fail("%s: slice %lu is refused as it is", from->path, (unsigned long)s->id);
    return read;
}

static bool left_over(struct cart_payloads p, struct cart_slice_read read)
{
    return cart_left_over(p.y, p.y_len, read.y_bits) || cart_left_over(p.cb, p.cb_len, read.cb_bits) ||
           cart_left_over(p.cr, p.cr_len, read.cr_bits);
}

/* Whether the blocks that were just read are written as the bytes that they were read from. */
static bool written_back(struct cart_shape shape, struct cart_payloads p)
{
    struct cart_slice_written written = cart_write_slice(shape, blocks, list_len(shape), codes, sizeof codes);
    struct cart_payloads c = cart_slice_codes(codes, &written);
    return written.refusal == CART_DONE && c.y_len == p.y_len && c.cb_len == p.cb_len && c.cr_len == p.cr_len &&
           memcmp(c.y, p.y, c.y_len) == 0 && memcmp(c.cb, p.cb, c.cb_len) == 0 && memcmp(c.cr, p.cr, c.cr_len) == 0;
}

/* A number below n: Knuth's linear congruential generator, of which the high bits are the good ones. */
static size_t below(size_t n)
{
    static uint64_t state = 1;
    state = state * 6364136223846793005u + 1442695040888963407u;
    return (size_t)(state >> 33) % n;
}

/* The payloads with one bit flipped, in a copy where they lie one behind another. */
static struct cart_payloads flipped(struct cart_payloads p)
{
    size_t cb = p.y_len, cr = cb + p.cb_len, bit = below(8 * (cr + p.cr_len));
    memcpy(copies, p.y, p.y_len);
    memcpy(copies + cb, p.cb, p.cb_len);
    memcpy(copies + cr, p.cr, p.cr_len);
    copies[bit / 8] ^= (uint8_t)(0x80 >> bit % 8);
    return (struct cart_payloads){copies, p.y_len, copies + cb, p.cb_len, copies + cr, p.cr_len};
}

static void damage_bits(struct slices from, unsigned long flips)
{
    unsigned long all = 0, refused = 0, seen = 0, same = 0;
    for (struct slice s; slices_next(&from, &s);) {
        decode_right(&from, &s);
        for (unsigned long i = 0; i < flips; i++, all++) {
            struct cart_payloads copy = flipped(s.payloads);
            struct cart_slice_read read = decode(s.shape, copy);
            if (read.refusal != CART_DONE)
                refused++;
            else if (left_over(copy, read))
                seen++;
            else if (written_back(s.shape, copy))
                same++;
        }
    }
    printf("%lu copies: %lu refused, %lu seen by the bits left over, %lu written back as they are, %lu with other bytes\n", all,
           refused, seen, same, all - refused - seen - same);
}

static bool same_bits(struct cart_slice_read a, struct cart_slice_read b)
{
    return a.y_bits == b.y_bits && a.cb_bits == b.cb_bits && a.cr_bits == b.cr_bits;
}

static void damage_shapes(struct slices from)
{
    unsigned long all = 0, refused = 0, seen = 0, other = 0;
    for (struct slice s; slices_next(&from, &s);) {
        struct cart_slice_read right = decode_right(&from, &s);
        struct cart_shape as = s.shape;
        for (as.macroblocks = 1; as.macroblocks <= CART_MAX_MACROBLOCKS; as.macroblocks++)
            for (as.chroma = CART_422; as.chroma <= CART_444; as.chroma++) {
                if (as.macroblocks == s.shape.macroblocks && as.chroma == s.shape.chroma)
                    continue;
                struct cart_slice_read read = decode(as, s.payloads);
                all++;
                refused += read.refusal != CART_DONE;
                seen += read.refusal == CART_DONE && left_over(s.payloads, read);
                other += read.refusal == CART_DONE && !same_bits(read, right);
            }
    }
    printf("%lu shapes: %lu refused, %lu read; of these %lu seen by the bits left over, %lu by the right count\n", all, refused,
           all - refused, seen, other);
}

/* 1 to 999999, or 0 where the word is no such number. */
static unsigned long number(const char *word)
{
    size_t digits = strspn(word, "0123456789");
    return digits <= 6 && word[digits] == '\0' ? strtoul(word, NULL, 10) : 0;
}

int main(int argc, char **argv)
{
    begin(argc, argv, help);
    unsigned long flips = argc == 4 && strcmp(argv[1], "bits") == 0 ? number(argv[3]) : 0;
    if (flips > 0)
        damage_bits(slices_open(argv[2]), flips);
    else if (argc == 3 && strcmp(argv[1], "shapes") == 0)
        damage_shapes(slices_open(argv[2]));
    else
        fail("the words are bits SLICES FLIPS, with FLIPS from 1 to 999999, or shapes SLICES; damage --help says more");
    return finish(0);
}
