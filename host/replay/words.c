/* The words of a line, one space before each: decimal numbers first, then bytes in hexadecimal or entries of a list. */
#include "replay.h"

/* Takes a byte that has to stand next. */
static bool take(struct bytes *rest, char byte)
{
    if (rest->len == 0 || rest->at[0] != byte)
        return false;
    rest->at++;
    rest->len--;
    return true;
}

/* Takes a digit, 0 to 9 and a to f, that is below the base. */
static bool take_digit(struct bytes *rest, unsigned base, unsigned *digit)
{
    static const char digits[] = "0123456789abcdef";
    const char *found = rest->len > 0 ? memchr(digits, rest->at[0], base) : NULL;
    *digit = found ? (unsigned)(found - digits) : 0;
    return found && take(rest, *found);
}

/* Digits, as a number below 2^64. */
static bool take_number(struct bytes *rest, uint64_t *n)
{
    bool any = false;
    unsigned digit;
    for (*n = 0; take_digit(rest, 10, &digit); any = true) {
        if (*n > (UINT64_MAX - digit) / 10)
            return false;
        *n = 10 * *n + digit;
    }
    return any;
}

/* The line's last word: two digits a byte, or `-` for none. */
static bool take_hex(struct bytes *rest, struct words *w)
{
    unsigned high, low;
    if (!take(rest, ' ') || rest->len == 0)
        return false;
    if (take(rest, '-'))
        return rest->len == 0;
    for (; rest->len > 0; w->bytes++) {
        if (w->bytes == sizeof w->payload || !take_digit(rest, 16, &high) || !take_digit(rest, 16, &low))
            return false;
        w->payload[w->bytes] = (uint8_t)(16 * high + low);
    }
    return true;
}

/* `P:V` up to the line's end, a place and the value there, each place above the last. */
static bool take_entries(struct bytes *rest, struct words *w)
{
    while (rest->len > 0) {
        uint64_t place, magnitude;
        if (!take(rest, ' ') || !take_number(rest, &place) || !take(rest, ':'))
            return false;
        bool negative = take(rest, '-');
        if (!take_number(rest, &magnitude) || magnitude > (uint64_t)INT32_MAX + negative)
            return false;
        if (place < w->used || place >= LIST_LIMIT)
            return false;
        cart_put(w->list, place, (int32_t)(negative ? -(int64_t)magnitude : (int64_t)magnitude));
        w->used = place + 1;
    }
    return true;
}

bool read_words(struct bytes rest, unsigned numbers, enum tail tail, struct words *w)
{
    memset(w, 0, sizeof *w);
    for (unsigned i = 0; i < numbers; i++)
        if (!take(&rest, ' ') || !take_number(&rest, &w->n[i]))
            return false;
    switch (tail) {
    case HEX: return take_hex(&rest, w);
    case ENTRIES: return take_entries(&rest, w);
    default: return rest.len == 0;
    }
}

bool fits(const struct words *w, uint64_t len, uint64_t most, uint64_t room)
{
    return w->used <= len && len <= most && room <= ROOM_LIMIT;
}
