/* The slice coder. What is told, and how a refusal is, is as in coefficients.c.

       u MACROBLOCKS CHROMA SCAN LEN Y CB HEX       decodes into LEN coefficients the three payloads that HEX is, the
                                                    first two of Y and of CB bytes
                                                    BITS BITS BITS P:V ..
       k MACROBLOCKS CHROMA SCAN LEN ROOM P:V ..    encodes LEN coefficients into ROOM bytes
                                                    BYTES BYTES BYTES BITS BITS BITS HEX

   The refusal of a payload names its component, `y`, `cb` or `cr`, before what it left. */
#include "replay.h"

/* One macroblock more than can be coded. */
enum { MOST = CART_SLICE_LEN(CART_MAX_MACROBLOCKS + 1, CART_444) / 4 };

bool decodes_slice(const struct words *w)
{
    const uint64_t len = w->n[3], y = w->n[4], cb = w->n[5];
    if (len > MOST || y > w->bytes || cb > w->bytes - y)
        return false;
    const struct bytes payloads[3] = {{w->payload, y}, {w->payload + y, cb}, {w->payload + y + cb, w->bytes - y - cb}};
    return tell_list(decode_slice((struct shape){w->n[0], w->n[1], w->n[2]}, payloads, 4 * len), 3, len);
}

bool encodes_slice(const struct words *w)
{
    const uint64_t len = w->n[3], room = w->n[4];
    return fits(w, len, MOST, room) &&
           tell_code(encode_slice((struct shape){w->n[0], w->n[1], w->n[2]}, w->list, 4 * len, room), 3, room);
}
