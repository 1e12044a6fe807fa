/* The letters, and the answer to a line. */
#include "replay.h"

static const struct {
    char name;
    unsigned numbers;
    enum tail tail;
    letter *answer;
} letters[] = {
    {'r', 2, HEX, read_bits},     {'z', 2, HEX, zero_prefix}, {'e', 1, HEX, end_of_data}, {'p', 3, HEX, put},
    {'w', 2, NOTHING, weights},   {'b', 2, NOTHING, blends},  {'s', 2, NOTHING, scan},    {'f', 0, HEX, flags},
    {'q', 1, NOTHING, scale},
    {'d', 2, HEX, decodes},       {'c', 3, ENTRIES, encodes},
    {'u', 6, HEX, decodes_slice}, {'k', 5, ENTRIES, encodes_slice},
    {'a', 3, HEX, decodes_alpha}, {'h', 3, ENTRIES, encodes_alpha},
};

void answer(struct bytes line)
{
    static struct words w;
    size_t i = 0;
    text.len = 0;
    while (i < sizeof letters / sizeof *letters && (line.len == 0 || line.at[0] != letters[i].name))
        i++;
    if (i == sizeof letters / sizeof *letters || line.len > LINE_LIMIT ||
        !read_words((struct bytes){line.at + 1, line.len - 1}, letters[i].numbers, letters[i].tail, &w) ||
        !letters[i].answer(&w))
        tell("bad line");
}
