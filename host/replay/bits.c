/* The bit layer, over probe. A refusal is `refused K`.

       r AT N HEX      a field of N bits of the payload HEX      VALUE NEXT
       z AT CAP HEX    zeros up to a 1                           ZEROS NEXT
       e AT HEX        the end of data                           1 or 0
       p AT N V HEX    a field into a buffer that holds HEX      NEXT HEX, the buffer after */
#include "probe.h"
#include "replay.h"

/* The largest number of 32 bits stands for all above it: no N is right there, and no payload has so many zeros. */
static uint32_t narrow(uint64_t n)
{
    return n < UINT32_MAX ? (uint32_t)n : UINT32_MAX;
}

/* The value is in zone 1. */
static bool tell_read(void)
{
    uint32_t value;
    memcpy(&value, answered->left[1], sizeof value);
    if (answered->result == 0)
        return tell("%" PRIu32 " %" PRIu64, value, answered->told[0]);
    EXPECT(value == 0 && answered->told[0] == 0);
    return tell_refused(answered->result);
}

bool read_bits(const struct words *w)
{
    while (next_side())
        made(probe_read_bits(READS(0, w->payload, w->bytes), w->n[0], narrow(w->n[1]), writes(1, 4), number(0)));
    return tell_read();
}

bool zero_prefix(const struct words *w)
{
    while (next_side())
        made(probe_zero_prefix(READS(0, w->payload, w->bytes), w->n[0], narrow(w->n[1]), writes(1, 4), number(0)));
    return tell_read();
}

bool end_of_data(const struct words *w)
{
    while (next_side())
        made(probe_end_of_data(READS(0, w->payload, w->bytes), w->n[0]));
    return tell("%" PRIu32, answered->result);
}

bool put(const struct words *w)
{
    const uint8_t *buffer = answered->left[0];
    while (next_side())
        made(probe_put(changes(0, w->payload, w->bytes), w->bytes, w->n[0], narrow(w->n[1]), w->n[2], number(0)));
    if (answered->result == 0)
        return tell_numbers(answered->told, 1) && tell_bytes(buffer, w->bytes);
    EXPECT(answered->told[0] == 0 && memcmp(buffer, w->payload, w->bytes) == 0);
    return tell_refused(answered->result);
}
