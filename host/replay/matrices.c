/* Matrices, block scans and the scale of an index. CHROMA is 0 for the table of luma and 1 for that of chroma. A
   selector that is unknown is `refused 13`.

       w PAIR CHROMA      a table of a pair: 0 flat, 1 perceptual, 2 to 5 the signatures of Proxy, LT, Standard and HQ
       b NUMBER CHROMA    a table of a blend
       s SCAN INVERSE     a block scan, over probe: 0 progressive, 1 interlaced; 0 the scan, 1 its inverse
                          64 HEX, the table
       f HEX              the flags of the pair whose luma table, then its chroma table, are HEX
                          4 HEX: the weights are valid, luma is loaded, chroma is loaded, and, over probe, both are flat
       q INDEX            SCALE */
#include "probe.h"
#include "replay.h"

static bool tell_table(const uint8_t *table, size_t len)
{
    return tell("%zu", len) && tell_bytes(table, len);
}

/* No function takes the number of a table, so an unknown one is refused here. */
static bool tell_one(struct matrices m, uint64_t chroma)
{
    if (m.result != CART_DONE || chroma > 1)
        return tell_refused(m.result != CART_DONE ? m.result : CART_SELECTOR);
    return tell_table(chroma == 1 ? m.chroma : m.luma, WEIGHTS);
}

/* Nor the number of a pair. */
bool weights(const struct words *w)
{
    if (w->n[0] >= MATRIX_PAIRS)
        return tell_refused(CART_SELECTOR);
    return tell_one(matrix_pair((unsigned)w->n[0]), w->n[1]);
}

bool blends(const struct words *w)
{
    return tell_one(blend(w->n[0]), w->n[1]);
}

bool scan(const struct words *w)
{
    uint8_t table[64];
    for (unsigned i = 0; i < sizeof table; i++) {
        while (next_side())
            made(probe_scan(w->n[0], w->n[1], i, number(0)));
        EXPECT(answered->result == 0 ? answered->told[0] < sizeof table : answered->told[0] == 0);
        if (answered->result != 0)
            return tell_refused(answered->result);
        table[i] = (uint8_t)answered->told[0];
    }
    return tell_table(table, sizeof table);
}

bool flags(const struct words *w)
{
    const uint8_t *luma = w->payload, *chroma = w->payload + WEIGHTS;
    if (w->bytes != 2 * WEIGHTS)
        return false;
    struct matrix_flags f = matrix_flags(luma, chroma);
    while (next_side())
        made(probe_is_default(reads(0, luma, WEIGHTS), reads(1, chroma, WEIGHTS)));
    return tell("4 %02" PRIx64 "%02" PRIx64 "%02" PRIx64 "%02" PRIx32, f.valid, f.load_luma, f.load_chroma,
                answered->result);
}

bool scale(const struct words *w)
{
    return w->n[0] <= UINT8_MAX && tell("%" PRIu64, qscale((uint8_t)w->n[0]));
}
