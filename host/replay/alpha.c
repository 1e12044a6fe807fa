/* The alpha coder. What is told, and how a refusal is, is as in coefficients.c.

       a KIND LEN BYTES HEX      decodes into LEN samples a payload of BYTES bytes, those of HEX and zeros behind them
                                 BITS P:D ..
       h KIND LEN ROOM P:D ..    encodes LEN samples into ROOM bytes
                                 BYTES BITS HEX

   P:D is a place whose sample is not the one before it, 0 before the first, and by how much they differ: a run is one
   word. */
#include "replay.h"

static uint16_t samples[LIST_LIMIT];

bool decodes_alpha(const struct words *w)
{
    const uint64_t len = w->n[1], bytes = w->n[2];
    if (len > LIST_LIMIT || bytes > PAYLOAD_LIMIT)
        return false;
    struct decoded d = decode_alpha(w->n[0], w->payload, bytes, len);
    if (d.result != CART_DONE)
        return tell_refused_list(d, len * sizeof *samples);
    tell_numbers(d.bits, 1);
    memcpy(samples, d.list, len * sizeof *samples);
    for (size_t i = 0; i < len; i++)
        tell_entry(i, samples[i] - (i == 0 ? 0 : samples[i - 1]));
    return true;
}

bool encodes_alpha(const struct words *w)
{
    const uint64_t len = w->n[1], room = w->n[2];
    if (!fits(w, len, LIST_LIMIT, room))
        return false;
    int64_t sample = 0;
    for (size_t i = 0; i < len; i++) {
        sample += cart_get(w->list, i);
        if (sample < 0 || sample > UINT16_MAX)
            return false;
        samples[i] = (uint16_t)sample;
    }
    return tell_code(encode_alpha(w->n[0], samples, len, room), 1, room);
}
