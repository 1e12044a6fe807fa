#include "slices.h"

#include <inttypes.h>
#include <string.h>

static const char magic[] = "slices1\n";

static const uint8_t *take(struct slices *slices, size_t len)
{
    const uint8_t *front = slices->rest.at;
    if (slices->rest.len < len)
        fail("%s: the file of slices ends within a slice", slices->path);
    slices->rest.at += len;
    slices->rest.len -= len;
    return front;
}

static uint32_t take_number(struct slices *slices)
{
    const uint8_t *b = take(slices, 4);
    return b[0] | (uint32_t)b[1] << 8 | (uint32_t)b[2] << 16 | (uint32_t)b[3] << 24;
}

struct slices slices_open(const char *path)
{
    struct slices slices = {path, read_file(path)};
    size_t len = sizeof magic - 1;
    if (slices.rest.len < len || memcmp(take(&slices, len), magic, len) != 0)
        fail("%s: this is no file of slices", path);
    return slices;
}

bool slices_next(struct slices *slices, struct slice *s)
{
    if (slices->rest.len == 0)
        return false;
    uint32_t numbers[10];
    for (size_t i = 0; i < 10; i++)
        numbers[i] = take_number(slices);
    s->id = numbers[0];
    s->shape = (struct cart_shape){numbers[1], numbers[2], numbers[3]};
    s->kind = numbers[4];
    s->samples = numbers[5];
    /* a rewrite would lose it */
    if (s->kind == 0 && (s->samples > 0 || numbers[9] > 0))
        fail("%s: slice %" PRIu32 " has alpha and no kind", slices->path, s->id);
    const uint8_t *payloads[4];
    for (size_t i = 0; i < 4; i++)
        payloads[i] = take(slices, numbers[6 + i]);
    s->payloads = (struct cart_payloads){payloads[0], numbers[6], payloads[1], numbers[7], payloads[2], numbers[8]};
    s->alpha = (struct bytes){payloads[3], numbers[9]};
    return true;
}
