/* recode: reads a file of slices, decodes each slice and its alpha, encodes what it read, reads that back, and compares. A program
   to start from: which call comes when, how much room each buffer needs, what a refusal is answered with, and what is asked of
   a payload that was read. */
#include "slices.h"

#include <errno.h>
#include <inttypes.h>
#include <stdio.h>
#include <string.h>
#include <sys/stat.h>

const char program[] = "recode";

static const char help[] =
    "usage: recode SLICES [LISTS]\n"
    "\n"
    "Reads the slices of the file SLICES (host/pack.py says what that is) and their alpha, writes each anew, reads that\n"
    "back, and compares. It prints a line for each slice, one for its alpha, and a summary. LISTS, another file, takes what\n"
    "was decoded, one after another: a slice's blocks, then its samples, both little-endian; what was refused takes no place.\n"
    "\n"
    "The exit status is\n"
    "  0  all is well; zero bytes behind a code are, and so is alpha that comes back with other bytes and the same samples\n"
    "  1  something was refused, is left behind a code, or came back as something else\n"
    "  2  the words are wrong, or a file cannot be read or written\n";

/* How one thing went. */
enum outcome { REFUSED, SAME_BYTES, OTHER_BYTES, WRONG, OUTCOMES };

static const char *const outcome_names[OUTCOMES] = {
    [SAME_BYTES] = "written back with the same bytes",
    [OTHER_BYTES] = "written back with other bytes and the same values",
    [WRONG] = "WRONG: what was written back is something else",
};

/* What a payload has behind its code. The last is a finding: a rewrite would lose it. */
enum behind { NOTHING, ZERO_BYTES, LEFT_OVER };

static const char *const behind_names[] = {
    [ZERO_BYTES] = "zero bytes behind",
    [LEFT_OVER] = "something is left behind",
};

static unsigned long slices[OUTCOMES], alphas[OUTCOMES], left_over;

/* Lists for the largest slice. Each is there twice: as decoded, and as read back. */
static uint8_t blocks[CART_SLICE_LEN(CART_MAX_MACROBLOCKS, CART_444)], blocks_back[sizeof blocks];
static uint8_t out[CART_SLICE_CODE_LEN(CART_MAX_MACROBLOCKS, CART_444, 29)];

/* One more than the limit, so that a slice which names too many can be handed on and be refused. */
static uint16_t samples[CART_MAX_SAMPLES + 1], samples_back[CART_MAX_SAMPLES + 1];
static uint8_t alpha_code[CART_ALPHA_CODE_LEN(CART_ALPHA_16, CART_MAX_SAMPLES)];

static size_t least(size_t a, size_t b)
{
    return a < b ? a : b;
}

/* The numbers come from a file, so the list that they ask for may be longer than ours. Then ours is handed on, and the call
   refuses the numbers. */
static size_t blocks_len(struct cart_shape shape)
{
    return least(CART_SLICE_LEN(shape.macroblocks, shape.chroma), sizeof blocks);
}

/* One component: as it came, as it was read, and as it was written and read back. */
struct part {
    struct bytes payload, code;
    uint64_t bits, written, back;
};

static enum behind behind(const struct part *c)
{
    /* to be asked of every payload that was read: does it hold more than the blocks that it was read for? */
    if (cart_left_over(c->payload.at, c->payload.len, c->bits))
        return LEFT_OVER;
    return c->payload.len > c->code.len ? ZERO_BYTES : NOTHING;
}

/* Encodes the blocks that were read and reads them back. Whoever rewrites a slice should do the same before the card is
   cleared. */
static enum outcome write_slice_back(const struct slice *s, struct cart_slice_read read, enum behind found[3])
{
    size_t len = blocks_len(s->shape);
    struct cart_slice_written written = cart_write_slice(s->shape, blocks, len, out, sizeof out);
    struct cart_payloads p = s->payloads, codes = cart_slice_codes(out, &written);
    struct cart_slice_read back = cart_read_slice(s->shape, codes, blocks_back, len);
    if (written.refusal != CART_DONE || back.refusal != CART_DONE || memcmp(blocks, blocks_back, len) != 0)
        return WRONG;
    const struct part parts[3] = {
        {{p.y, p.y_len}, {codes.y, codes.y_len}, read.y_bits, written.y_bits, back.y_bits},
        {{p.cb, p.cb_len}, {codes.cb, codes.cb_len}, read.cb_bits, written.cb_bits, back.cb_bits},
        {{p.cr, p.cr_len}, {codes.cr, codes.cr_len}, read.cr_bits, written.cr_bits, back.cr_bits},
    };
    enum outcome outcome = SAME_BYTES;
    for (size_t i = 0; i < 3; i++) {
        const struct part *c = &parts[i];
        if (c->written != c->bits || c->back != c->bits || c->payload.len < c->code.len)
            return WRONG;
        found[i] = behind(c);
        if (found[i] != LEFT_OVER && memcmp(c->payload.at, c->code.at, c->code.len) != 0)
            return WRONG;
        if (found[i] != NOTHING)
            outcome = OTHER_BYTES;
    }
    return outcome;
}

static enum outcome recode_slice(const struct slice *s)
{
    struct cart_slice_read read = cart_read_slice(s->shape, s->payloads, blocks, blocks_len(s->shape));
    enum behind found[3] = {NOTHING, NOTHING, NOTHING};
    if (read.refusal != CART_DONE) {
        /* a slice that cannot be read is copied as it is, and never written anew */
        printf("slice %" PRIu32 ": refused %" PRIu32 " in %s: %s\n", s->id, read.refusal, cart_component_name(read.component),
               cart_refusal_name(read.refusal));
        return REFUSED;
    }
    enum outcome outcome = write_slice_back(s, read, found);
    printf("slice %" PRIu32 ": Y %" PRIu64 ", Cb %" PRIu64 ", Cr %" PRIu64 " bits: %s", s->id, read.y_bits, read.cb_bits,
           read.cr_bits, outcome_names[outcome]);
    for (size_t i = 0; i < 3; i++)
        if (found[i] != NOTHING)
            printf("; %s %s's code", behind_names[found[i]], cart_component_name(CART_Y + i));
    putchar('\n');
    left_over += found[0] == LEFT_OVER || found[1] == LEFT_OVER || found[2] == LEFT_OVER;
    return outcome;
}

/* Another encoder may have written another code of the same samples, so bits are not compared here. Nothing can be left: that
   is refused. */
static enum outcome write_alpha_back(const struct slice *s)
{
    uint64_t bytes, bits, back;
    if (cart_encode_alpha(s->kind, samples, s->samples, alpha_code, sizeof alpha_code, &bytes, &bits) != CART_DONE)
        return WRONG;
    if (cart_decode_alpha(s->kind, alpha_code, bytes, samples_back, s->samples, &back) != CART_DONE || back != bits)
        return WRONG;
    if (memcmp(samples, samples_back, s->samples * sizeof *samples) != 0)
        return WRONG;
    return s->alpha.len == bytes && memcmp(s->alpha.at, alpha_code, bytes) == 0 ? SAME_BYTES : OTHER_BYTES;
}

static enum outcome recode_alpha(const struct slice *s)
{
    uint64_t bits;
    size_t number = least(s->samples, CART_MAX_SAMPLES + 1);
    uint32_t refusal = cart_decode_alpha(s->kind, s->alpha.at, s->alpha.len, samples, number, &bits);
    if (refusal != CART_DONE) {
        printf("alpha %" PRIu32 ": refused %" PRIu32 ": %s\n", s->id, refusal, cart_refusal_name(refusal));
        return REFUSED;
    }
    enum outcome outcome = write_alpha_back(s);
    printf("alpha %" PRIu32 ": %" PRIu64 " bits: %s\n", s->id, bits, outcome_names[outcome]);
    return outcome;
}

static void summarise(const char *what, const unsigned long count[OUTCOMES])
{
    unsigned long read = count[SAME_BYTES] + count[OTHER_BYTES] + count[WRONG];
    printf("%s: %lu read, %lu refused; written back: %lu with the same bytes, %lu with other bytes, %lu wrong", what, read,
           count[REFUSED], count[SAME_BYTES], count[OTHER_BYTES], count[WRONG]);
}

/* Where the lists are kept, if they are. */
static const char *lists_path;
static FILE *lists;

static void lists_failed(void)
{
    fail("%s: %s", lists_path, strerror(errno));
}

/* What is not there yet is no file. */
static bool same_file(const char *path, const char *other)
{
    struct stat a, b;
    return stat(path, &a) == 0 && stat(other, &b) == 0 && a.st_dev == b.st_dev && a.st_ino == b.st_ino;
}

static void keep(const void *list, size_t len)
{
    if (lists && fwrite(list, 1, len, lists) != len)
        lists_failed();
}

static void recode(const struct slice *s)
{
    enum outcome outcome = recode_slice(s);
    slices[outcome]++;
    if (outcome != REFUSED)
        keep(blocks, blocks_len(s->shape));
    if (s->kind == 0)
        return;
    outcome = recode_alpha(s);
    alphas[outcome]++;
    if (outcome != REFUSED)
        keep(samples, s->samples * sizeof *samples);
}

int main(int argc, char **argv)
{
    begin(argc, argv, help);
    if (argc != 2 && argc != 3)
        fail("the words are SLICES [LISTS]; recode --help says more");
    struct slices rest = slices_open(argv[1]);
    lists_path = argv[2];
    if (lists_path && same_file(argv[1], lists_path))
        fail("%s: the lists would be written over the slices", lists_path);
    if (lists_path && !(lists = fopen(lists_path, "wb")))
        lists_failed();
    for (struct slice s; slices_next(&rest, &s);)
        recode(&s);
    if (lists && fclose(lists) != 0)
        lists_failed();
    summarise("slices", slices);
    printf("; %lu with something left over\n", left_over);
    summarise("alphas", alphas);
    putchar('\n');
    return finish(slices[REFUSED] + slices[WRONG] + left_over + alphas[REFUSED] + alphas[WRONG] > 0);
}
