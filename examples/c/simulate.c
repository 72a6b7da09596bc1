/*
 * A simulator beside the twin: drives both with the same operands and compares the results.
 * Put the circuit's model in the place of circuit().
 */
#include <inttypes.h>
#include <stdio.h>

#include "rsqrt_twin.h"

/* What the circuit gives; here the definition itself, by a search from the top. */
static uint32_t circuit(uint32_t k, uint32_t q, uint32_t x)
{
    unsigned __int128 one = (unsigned __int128)1 << (k + 2 * q);
    uint32_t f = 0;
    for (uint32_t bit = (uint32_t)1 << (q + 1); bit != 0; bit >>= 1) {
        unsigned __int128 tried = f | bit;
        if (x * tried * tried <= one)
            f |= bit;
    }
    return f;
}

static void show(uint32_t make, uint32_t k, uint32_t q, uint32_t x)
{
    uint64_t answer = rsqrt_fixed(make, k, q, x);
    printf("make %" PRIu32 "  K %" PRIu32 "  Q %" PRIu32 "  x %" PRIu32 ": ", make, k, q, x);
    if (rsqrt_refusal(answer) != 0)
        printf("refused by %" PRIu32 "\n", rsqrt_refusal(answer));
    else
        printf("%" PRIu32 "%s\n", rsqrt_result(answer), rsqrt_marks(answer) & RSQRT_INEXACT ? " inexact" : " exact");
}

int main(void)
{
    show(RSQRT_RADIX2_PLAIN, 4, 4, 8);
    show(RSQRT_RADIX4_CARRY_SAVE, 4, 4, 8);
    show(RSQRT_RADIX4_CARRY_SAVE, 4, 4, 4);
    show(RSQRT_RADIX4_CARRY_SAVE, 18, 26, 167745);
    show(RSQRT_RADIX2_PLAIN, 28, 28, 268435455);
    show(2, 29, 3, 0);
    show(RSQRT_RADIX2_PLAIN, 29, 3, 0);
    show(RSQRT_RADIX2_PLAIN, 28, 3, 0);
    show(RSQRT_RADIX2_PLAIN, 4, 30, 8);
    show(RSQRT_RADIX2_PLAIN, 4, 4, 3);
    show(RSQRT_RADIX2_PLAIN, 4, 4, 16);

    unsigned long compared = 0;
    for (uint32_t k = 4; k <= 12; k++)
        for (uint32_t q = 2; q <= 12; q += 2)
            for (uint32_t x = (uint32_t)1 << (k - 2); x < (uint32_t)1 << k; x++)
                for (uint32_t make = 0; make <= 1; make++) {
                    uint32_t f = rsqrt_result(rsqrt_fixed(make, k, q, x));
                    if (f != circuit(k, q, x)) {
                        printf("the circuit differs at K %" PRIu32 " Q %" PRIu32 " x %" PRIu32 "\n", k, q, x);
                        return 1;
                    }
                    compared++;
                }
    printf("%lu results compared, no difference\n", compared);
    return 0;
}
