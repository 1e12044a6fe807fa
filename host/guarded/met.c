#include "met.h"

#include "expect.h"

#include <string.h>

#define NO(number) (1ul << (number))

/* Every number that a function can give; bit 0 is done. */
static const struct {
    const char *name;
    unsigned long can;
} functions[] = {
    {"cart_encode", NO(0) | NO(1) | NO(2) | NO(4) | NO(3)},
    {"cart_decode", NO(0) | NO(1) | NO(2) | NO(5) | NO(6) | NO(7) | NO(8)},
    {"cart_encode_slice", NO(0) | NO(13) | NO(1) | NO(2) | NO(4) | NO(3)},
    {"cart_decode_slice", NO(0) | NO(13) | NO(1) | NO(2) | NO(5) | NO(6) | NO(7) | NO(8)},
    {"cart_encode_alpha", NO(0) | NO(13) | NO(1) | NO(4) | NO(3)},
    {"cart_decode_alpha", NO(0) | NO(13) | NO(1) | NO(5) | NO(9) | NO(10) | NO(11) | NO(12)},
    {"cart_qscale", NO(0)},
    {"cart_flat and its like", NO(0)},
    {"cart_blend", NO(0) | NO(13)},
    {"cart_matrix_flags", NO(0)},
};

enum { FUNCTIONS = sizeof functions / sizeof *functions };
static unsigned long met[FUNCTIONS];

void meet(const char *function, uint32_t result)
{
    unsigned f = 0;
    while (f < FUNCTIONS && strcmp(functions[f].name, function) != 0)
        f++;
    if (f < FUNCTIONS)
        met[f] |= NO(result < 31 ? result : 31);
    else
        EXPECT(!"a function of the face");
}

void expect_all_met(void)
{
    for (unsigned f = 0; f < FUNCTIONS; f++) {
        about("%s: each number that it can give, and no other", functions[f].name);
        for (unsigned number = 0; number < 32; number++)
            EXPECT((met[f] & NO(number)) == (functions[f].can & NO(number)));
    }
}
