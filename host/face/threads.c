/* Several threads at once, each with a small stack: cart.h says that a call takes at most 64 KB of it. */
#include "tests.h"

#include <pthread.h>

enum { THREADS = 4, ROUNDS = 200, LEN = CART_SLICE_LEN(CART_MAX_MACROBLOCKS, CART_444), SAMPLES = 2048 };

/* The C library keeps some of a thread's stack for itself; a compiler's checks take more. */
#ifdef __SANITIZE_ADDRESS__
enum { STACK = 1 << 20 };
#else
enum { STACK = (64 + 16) << 10 };
#endif

struct work {
    pthread_t thread;
    uint8_t blocks[LEN], back[LEN], code[CART_SLICE_CODE_LEN(CART_MAX_MACROBLOCKS, CART_444, 29)];
    uint16_t samples[SAMPLES], samples_back[SAMPLES];
    bool all_same;
};

static struct work works[THREADS];

static bool slice_round(struct work *w)
{
    uint64_t n[7], component, bits[3];
    uint32_t wrote = cart_encode_slice(8, CART_444, CART_PROGRESSIVE, w->blocks, LEN, w->code, sizeof w->code, &n[0], &n[1], &n[2],
                                       &n[3], &n[4], &n[5], &n[6]);
    uint32_t read = cart_decode_slice(8, CART_444, CART_PROGRESSIVE, w->code, n[0], w->code + n[0], n[1], w->code + n[0] + n[1],
                                      n[2], w->back, LEN, &component, &bits[0], &bits[1], &bits[2]);
    return wrote == CART_DONE && read == CART_DONE && memcmp(w->blocks, w->back, LEN) == 0 && bits[2] == n[5];
}

static bool alpha_round(struct work *w)
{
    uint64_t bytes, bits, back;
    uint32_t wrote = cart_encode_alpha(CART_ALPHA_16, w->samples, SAMPLES, w->code, sizeof w->code, &bytes, &bits);
    uint32_t read = cart_decode_alpha(CART_ALPHA_16, w->code, bytes, w->samples_back, SAMPLES, &back);
    return wrote == CART_DONE && read == CART_DONE && memcmp(w->samples, w->samples_back, sizeof w->samples) == 0 && bits == back;
}

static bool coefficients_round(struct work *w)
{
    uint64_t bytes, bits, back;
    uint32_t wrote = cart_encode(32, w->blocks, CART_COEFFS_LEN(32), w->code, sizeof w->code, &bytes, &bits);
    uint32_t read = cart_decode(32, w->code, bytes, w->back, CART_COEFFS_LEN(32), &back);
    return wrote == CART_DONE && read == CART_DONE && memcmp(w->blocks, w->back, CART_COEFFS_LEN(32)) == 0 && bits == back;
}

static void *run(void *work)
{
    struct work *w = work;
    w->all_same = true;
    for (int i = 0; i < ROUNDS; i++)
        w->all_same = slice_round(w) && alpha_round(w) && coefficients_round(w) && w->all_same;
    return NULL;
}

void test_threads(void)
{
    pthread_attr_t small;
    about("threads");
    EXPECT(pthread_attr_init(&small) == 0 && pthread_attr_setstacksize(&small, STACK) == 0);
    for (int i = 0; i < THREADS; i++) {
        any_coefficients(works[i].blocks, LEN / 4, 12);
        for (size_t k = 0; k < SAMPLES; k++)
            works[i].samples[k] = (uint16_t)any_number();
        EXPECT(pthread_create(&works[i].thread, &small, run, &works[i]) == 0);
    }
    for (int i = 0; i < THREADS; i++)
        EXPECT(pthread_join(works[i].thread, NULL) == 0 && works[i].all_same);
    pthread_attr_destroy(&small);
}
