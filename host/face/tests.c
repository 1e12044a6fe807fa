/* The test of the C face: every function at every limit, over the archive that ships. The last line is 'N passed, M failed'. */
#include "tests.h"

uint32_t any_number(void)
{
    static uint64_t state = 1;
    state = state * 6364136223846793005u + 1442695040888963407u;
    return (uint32_t)(state >> 32);
}

void any_coefficients(uint8_t *list, size_t coefficients, unsigned b)
{
    uint32_t most = (UINT32_C(1) << b) - 1;
    for (size_t i = 0; i < coefficients; i++) {
        uint32_t magnitude = any_number() & most, choice = any_number() % 4;
        if (choice == 0)
            magnitude = 0;
        else if (choice == 1)
            magnitude = most;
        cart_put(list, i, any_number() % 2 ? (int32_t)magnitude : -(int32_t)magnitude);
    }
}

int main(void)
{
    expect_begin();
    test_coefficients();
    test_slices();
    test_alpha();
    test_matrices();
    test_threads();
    expect_all_met();
    return expect_report();
}
