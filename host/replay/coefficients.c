/* The coefficient coder:

       d BLOCKS LEN HEX            decodes the payload HEX into LEN coefficients
                                   BITS P:V .., the coefficients that are not 0
       c BLOCKS LEN ROOM P:V ..    encodes LEN coefficients, 0 where no word names them, into ROOM bytes
                                   BYTES BITS HEX, the whole buffer after

   Each byte of an output is a5 before the call. A refusal is `refused K` and what it left of the output: `zero`,
   `kept`, `mixed` or `touched`; 3 has the needed bytes between. */
#include "replay.h"

/* One block more than can be coded. */
enum { MOST = 64 * (CART_MAX_BLOCKS + 1) };

bool decodes(const struct words *w)
{
    const uint64_t len = w->n[1];
    return len <= MOST && tell_list(decode(w->n[0], w->payload, w->bytes, 4 * len), 1, len);
}

bool encodes(const struct words *w)
{
    const uint64_t len = w->n[1], room = w->n[2];
    return fits(w, len, MOST, room) && tell_code(encode(w->n[0], w->list, 4 * len, room), 1, room);
}
