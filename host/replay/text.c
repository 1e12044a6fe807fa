/* An answer, as it is written. */
#include "replay.h"

#include <stdarg.h>
#include <stdio.h>

struct text text;

bool tell(const char *format, ...)
{
    va_list words;
    va_start(words, format);
    int more = vsnprintf(text.at + text.len, sizeof text.at - text.len, format, words);
    va_end(words);
    if (more < 0 || (size_t)more >= sizeof text.at - text.len)
        fail("an answer is longer than any can be");
    text.len += (size_t)more;
    return true;
}

bool tell_numbers(const uint64_t *numbers, unsigned count)
{
    for (unsigned i = 0; i < count; i++)
        tell("%s%" PRIu64, i == 0 ? "" : " ", numbers[i]);
    return true;
}

bool tell_bytes(const uint8_t *bytes, size_t len)
{
    tell(len == 0 ? " -" : " ");
    for (size_t i = 0; i < len; i++)
        tell("%02x", bytes[i]);
    return true;
}

bool tell_entry(size_t place, int32_t value)
{
    return value == 0 || tell(" %zu:%" PRId32, place, value);
}

bool tell_refused(uint32_t refusal)
{
    return tell("refused %" PRIu32, refusal);
}

bool tell_refused_list(struct decoded d, size_t size)
{
    static const char *const names[] = {"", " y", " cb", " cr"};
    tell_refused(d.result);
    tell("%s", d.component <= CART_CR ? names[d.component] : " nowhere");
    return tell(still_old(d.list, 0, size) ? " kept" : all_zero(d.list, size) ? " zero" : " mixed");
}

bool tell_list(struct decoded d, unsigned payloads, size_t len)
{
    if (d.result != CART_DONE)
        return tell_refused_list(d, 4 * len);
    tell_numbers(d.bits, payloads);
    for (size_t i = 0; i < len; i++)
        tell_entry(i, cart_get(d.list, i));
    return true;
}

bool tell_code(struct encoded e, unsigned codes, size_t room)
{
    if (e.result == CART_DONE)
        return tell_numbers(e.bytes, codes) && tell(" ") && tell_numbers(e.bits, codes) && tell_bytes(e.code, room);
    tell_refused(e.result);
    if (e.needed > 0)
        tell(" %" PRIu64, e.needed);
    return tell(still_old(e.code, 0, room) ? " kept" : " touched");
}
