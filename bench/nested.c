/*
 * The chunk search in the form that document 01 fixes: nested loops over codewords and, inside, bits; the bit loop is left once t
 * is passed, the outer one as soon as a codeword within t is found. Codewords are stepped by one row, as the library's are.
 * Returns the codeword's number, and leaves in *bits in how many bits it and the chunk differ; or -1, and *bits as it was. Only
 * the unerased bits count: all of them, or those of a mask, the others being erased.
 */
#include <stdint.h>

static inline int32_t search(const uint64_t *rows, uint32_t n, uint32_t k, uint32_t t, uint64_t x, uint64_t unerased, uint32_t *bits)
{
    const uint32_t last = ((uint32_t)1 << k) - 1;
    uint64_t word = 0;
    uint32_t i = 0;

    for (;;) {
        const uint64_t difference = (word ^ x) & unerased;
        uint32_t unlike = 0;

        for (uint32_t p = 0; p < n; p++) {
            unlike += (uint32_t)(difference >> p & 1);
            if (unlike > t)
                break;
        }
        if (unlike <= t) {
            *bits = unlike;
            return (int32_t)i;
        }
        if (i == last)
            return -1;
        i++;
        word ^= rows[__builtin_ctz(i)];
    }
}

int32_t nested_search(const uint64_t *rows, uint32_t n, uint32_t k, uint32_t t, uint64_t x, uint32_t *bits)
{
    return search(rows, n, k, t, x, UINT64_MAX, bits);
}

int32_t nested_search_unerased(const uint64_t *rows, uint32_t n, uint32_t k, uint32_t t, uint64_t x, uint64_t unerased, uint32_t *bits)
{
    return search(rows, n, k, t, x, unerased, bits);
}
