#define _DEFAULT_SOURCE
#include "zones.h"

#include "expect.h"

#include <stdio.h>
#include <stdlib.h>
#include <string.h>
#include <sys/mman.h>

/* PAGE is a multiple of any machine's page, and MIDDLE has room for the longest buffer and a red zone. */
enum { PAGE = 1 << 16, MIDDLE = LONGEST + PAGE, RED = 1 << 12 };

static enum { PAGE_BEHIND, PAGE_IN_FRONT, SIDES } side = SIDES;

static struct {
    uint8_t *middle, *at, *red; /* NULL until they are first used */
    size_t size;
    const void *content; /* NULL where it may be written */
} zones[ZONES];

static struct {
    uint64_t before, it, after;
} numbers[NUMBERS];

static struct answer answers[SIDES];
const struct answer *const answered = &answers[0];

static const uint64_t KEPT = 0x5eed5eed5eed5eed, UNWRITTEN = 0xdeadbeefdeadbeef;

/* Never 0, since a list may be set to zero; and not the same from byte to byte, unless one is asked for. */
static size_t old_first = 1, old_period = 251;

static uint8_t old_byte(size_t i)
{
    return (uint8_t)(i % old_period + old_first);
}

static uint8_t red_byte(size_t i)
{
    return (uint8_t)(0xc3 ^ i);
}

void old_content(uint8_t byte)
{
    old_first = byte;
    old_period = 1;
}

bool still_old(const void *buffer, size_t from, size_t to)
{
    for (size_t i = from; i < to; i++)
        if (((const uint8_t *)buffer)[i] != old_byte(i))
            return false;
    return true;
}

bool all_zero(const void *buffer, size_t size)
{
    for (size_t i = 0; i < size; i++)
        if (((const uint8_t *)buffer)[i] != 0)
            return false;
    return true;
}

static uint8_t *middle_of(unsigned zone)
{
    if (zones[zone].middle == NULL) {
        uint8_t *at = mmap(NULL, MIDDLE + 2 * PAGE, PROT_NONE, MAP_PRIVATE | MAP_ANONYMOUS, -1, 0);
        if (at == MAP_FAILED || mprotect(at + PAGE, MIDDLE, PROT_READ | PROT_WRITE) != 0) {
            perror("zones");
            exit(2);
        }
        zones[zone].middle = at + PAGE;
    }
    return zones[zone].middle;
}

static void *lend(unsigned zone, size_t size, const void *before, const void *content)
{
    uint8_t *middle = middle_of(zone), *at = side == PAGE_BEHIND ? middle + MIDDLE - size : middle;
    zones[zone].at = at;
    zones[zone].red = side == PAGE_BEHIND ? at - RED : at + size;
    zones[zone].size = size;
    zones[zone].content = content;
    for (size_t i = 0; i < RED; i++)
        zones[zone].red[i] = red_byte(i);
    for (size_t i = 0; i < size; i++)
        at[i] = before ? ((const uint8_t *)before)[i] : old_byte(i);
    return size == 0 && side == PAGE_IN_FRONT ? NULL : at;
}

const void *reads(unsigned zone, const void *content, size_t size)
{
    return lend(zone, size, content, content);
}

void *writes(unsigned zone, size_t size)
{
    return lend(zone, size, NULL, NULL);
}

void *changes(unsigned zone, const void *content, size_t size)
{
    return lend(zone, size, content, NULL);
}

uint64_t *number(unsigned n)
{
    return &numbers[n].it;
}

/* Whether everything around the buffers and the numbers is as it was. */
static bool whole(void)
{
    for (unsigned zone = 0; zone < ZONES; zone++)
        for (size_t i = 0; zones[zone].red != NULL && i < RED; i++)
            if (zones[zone].red[i] != red_byte(i))
                return false;
    for (unsigned n = 0; n < NUMBERS; n++)
        if (numbers[n].before != KEPT || numbers[n].after != KEPT)
            return false;
    return true;
}

bool next_side(void)
{
    side = side == SIDES ? PAGE_BEHIND : side + 1;
    if (side == SIDES) {
        EXPECT(answers[0].result == answers[1].result);
        EXPECT(memcmp(answers[0].told, answers[1].told, sizeof answers[0].told) == 0);
        for (unsigned zone = 0; zone < ZONES; zone++)
            if (zones[zone].size > 0 && zones[zone].content == NULL)
                EXPECT(memcmp(answers[0].left[zone], answers[1].left[zone], zones[zone].size) == 0);
        return false;
    }
    for (unsigned zone = 0; zone < ZONES; zone++)
        zones[zone].size = 0;
    for (unsigned n = 0; n < NUMBERS; n++) {
        numbers[n].before = numbers[n].after = KEPT;
        numbers[n].it = UNWRITTEN;
    }
    return true;
}

void made(uint32_t result)
{
    EXPECT(whole());
    answers[side].result = result;
    for (unsigned n = 0; n < NUMBERS; n++)
        answers[side].told[n] = numbers[n].it;
    for (unsigned zone = 0; zone < ZONES; zone++)
        if (zones[zone].size > 0 && zones[zone].content != NULL)
            EXPECT(memcmp(zones[zone].at, zones[zone].content, zones[zone].size) == 0);
        else if (zones[zone].size > 0)
            memcpy(answers[side].left[zone], zones[zone].at, zones[zone].size);
}
