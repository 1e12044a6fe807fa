/* The parts of the program, which main.c tells of. */
#ifndef REPLAY_H
#define REPLAY_H

#include "../guarded/calls.h"
#include "../guarded/expect.h"
#include "../guarded/zones.h"

#include <cart_plain.h>
#include <inttypes.h>
#include <string.h>

/* The longest line and the largest buffer; the longest list and payload are one longer than can be coded. */
enum { LINE_LIMIT = 65536, ROOM_LIMIT = 4096, LIST_LIMIT = CART_MAX_SAMPLES + 1, PAYLOAD_LIMIT = CART_MAX_PAYLOAD + 1 };

/* ---- words.c: a line as numbers, then nothing, bytes or a list */

enum tail { NOTHING, HEX, ENTRIES };

/* What the line does not name is 0. */
struct words {
    uint64_t n[6];
    size_t bytes, used; /* how many bytes HEX has; behind which place of the list none is named */
    uint8_t payload[PAYLOAD_LIMIT];
    uint8_t list[4 * LIST_LIMIT]; /* as cart_plain.h has it */
};

/* Reads a line behind its letter; false where it has not this form. */
bool read_words(struct bytes line, unsigned numbers, enum tail tail, struct words *w);

/* Whether the sizes of an encode are within the limits, and every place that is named is in the list. */
bool fits(const struct words *w, uint64_t len, uint64_t most, uint64_t room);

/* ---- text.c: the answer as it is written. What tells gives true, so that a case can end with it. */

/* The longest answer names alpha samples that all differ, with at most 13 bytes each. */
extern struct text {
    size_t len;
    char at[16 * LIST_LIMIT];
} text;

bool tell(const char *format, ...) __attribute__((format(printf, 1, 2)));
bool tell_numbers(const uint64_t *numbers, unsigned count);
bool tell_bytes(const uint8_t *bytes, size_t len); /* two digits a byte, or `-` for none */
bool tell_entry(size_t place, int32_t value);      /* `P:V`, a place and the value there; nothing where that is 0 */
bool tell_refused(uint32_t refusal);
bool tell_refused_list(struct decoded d, size_t size);
bool tell_list(struct decoded d, unsigned payloads, size_t len);
bool tell_code(struct encoded e, unsigned codes, size_t room);

/* ---- cases.c: the answer to a line, as the text */

void answer(struct bytes line);

/* The letters; false where the words are none of their cases. Each file says what they mean. */
typedef bool letter(const struct words *w);
letter read_bits, zero_prefix, end_of_data, put; /* bits.c */
letter weights, blends, scan, flags, scale;      /* matrices.c */
letter decodes, encodes;                         /* coefficients.c */
letter decodes_slice, encodes_slice;             /* slices.c */
letter decodes_alpha, encodes_alpha;             /* alpha.c */

#endif
