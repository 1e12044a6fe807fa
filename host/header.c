/* The test of the headers: each included twice, cart.h first, as C99 and as C++11; the macros where only a constant will do, with
   arguments and among operators that find a missing parenthesis; and a call, so that the names are found by a linker. */
#include <cart.h>
#include <cart.h>
#include <cart_plain.h>
#include <cart_plain.h>

/* a list of length -1 is no program */
#define CONSTANT(name, claim) typedef char name[(claim) ? 1 : -1]

#if CART_VERSION != CART_VERSION_MAJOR * 10000 + CART_VERSION_MINOR * 100 + CART_VERSION_PATCH
#error CART_VERSION is not made of its three numbers
#endif
CONSTANT(version, 2 * CART_VERSION == 2 * (CART_VERSION_MAJOR * 10000 + CART_VERSION_MINOR * 100 + CART_VERSION_PATCH));
CONSTANT(version_digits, CART_VERSION_MINOR < 100 && CART_VERSION_PATCH < 100);

CONSTANT(limits, CART_MAX_BLOCKS == 32 && CART_MAX_MACROBLOCKS == 8 && CART_MAX_SAMPLES == 16384 && CART_MAX_PAYLOAD == 65536);
CONSTANT(range, CART_MAX_COEFFICIENT == (1L << 29) - 1);

CONSTANT(coeffs_len, CART_COEFFS_LEN(0) == 0 && CART_COEFFS_LEN(1) == 256 && CART_COEFFS_LEN(CART_MAX_BLOCKS) == 8192);
CONSTANT(coeffs_len_sum, 2 * CART_COEFFS_LEN(1 + 1) == 1024 && 4096 / CART_COEFFS_LEN(1 + 1) == 8);

CONSTANT(slice_len, CART_SLICE_LEN(1, CART_422) == 2048 && CART_SLICE_LEN(1, CART_444) == 3072);
CONSTANT(slice_len_most, CART_SLICE_LEN(8, CART_422) == 16384 && CART_SLICE_LEN(8, CART_444) == 24576);
CONSTANT(slice_len_sum, 2 * CART_SLICE_LEN(1 + 1, 1 + 1) == 8192 && 24576 / CART_SLICE_LEN(1 + 3, CART_422 | 1) == 2);

CONSTANT(code_len, CART_CODE_LEN(0, 29) == 0 && CART_CODE_LEN(1, 0) == 40 && CART_CODE_LEN(32, 29) == 16128);
CONSTANT(code_len_sum, 2 * CART_CODE_LEN(1 + 1, 1 + 2) == 352 && 1056 / CART_CODE_LEN(1 + 1, 1 + 2) == 6);

CONSTANT(slice_code_len, CART_SLICE_CODE_LEN(1, CART_422, 0) == 320 && CART_SLICE_CODE_LEN(8, CART_444, 29) == 48384);
CONSTANT(slice_code_len_sum, 2 * CART_SLICE_CODE_LEN(1 + 1, 1 + 1, 1 + 2) == 2816);
CONSTANT(slice_code_len_part, 8448 / CART_SLICE_CODE_LEN(1 + 1, CART_422 | 1, 1 + 2) == 4);

CONSTANT(alpha_bits, CART_ALPHA_CODE_BITS(CART_ALPHA_8, 3) == 30 && CART_ALPHA_CODE_BITS(CART_ALPHA_16, 3) == 54);
CONSTANT(alpha_bits_sum, 2 * CART_ALPHA_CODE_BITS(0 + 1, 1 + 2) == 60 && 540 / CART_ALPHA_CODE_BITS(2 | 2, 1 + 2) == 10);
CONSTANT(alpha_len, CART_ALPHA_CODE_LEN(CART_ALPHA_8, 0) == 0 && CART_ALPHA_CODE_LEN(CART_ALPHA_8, 1) == 2);
CONSTANT(alpha_len_most, CART_ALPHA_CODE_LEN(CART_ALPHA_8, 16384) == 20480 && CART_ALPHA_CODE_LEN(CART_ALPHA_16, 16384) == 36864);
CONSTANT(alpha_len_sum, 2 * CART_ALPHA_CODE_LEN(0 + 1, 1 + 2) == 8 && 70 / CART_ALPHA_CODE_LEN(2 | 2, 1 + 2) == 10);

/* what is written can be read: no code is longer than a payload may be */
CONSTANT(readable, CART_CODE_LEN(CART_MAX_BLOCKS, 29) <= CART_MAX_PAYLOAD);
CONSTANT(readable_alpha, CART_ALPHA_CODE_LEN(CART_ALPHA_16, CART_MAX_SAMPLES) <= CART_MAX_PAYLOAD);

/* arguments that are ints, which a compiler can warn of */
static size_t lengths(int n, int chroma, int kind, int b)
{
    return CART_COEFFS_LEN(n) + CART_SLICE_LEN(n, chroma) + CART_CODE_LEN(n, b) + CART_SLICE_CODE_LEN(n, chroma, b) +
           CART_ALPHA_CODE_BITS(kind, n) + CART_ALPHA_CODE_LEN(kind, n);
}

int main(void)
{
    uint8_t luma[64], chroma[64];
    uint64_t scale = 0;
    return !(cart_qscale(255, &scale) == CART_DONE && scale == 636 && cart_flat(luma, chroma) == CART_DONE && luma[63] == 4 &&
             lengths(1, CART_422, CART_ALPHA_8, 0) == 256 + 2048 + 40 + 320 + 10 + 2);
}
