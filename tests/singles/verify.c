/*
 * Compares the twin's singles with MPFR's mpfr_rec_sqrt, in four modes and both makes: every significand of both exponent parities, then
 * a sweep over all exponents and the special words. MPFR leaves NaNs and -0 to its caller: those are compared with the rules themselves.
 */
#include <inttypes.h>
#include <mpfr.h>
#include <stdio.h>
#include <stdlib.h>
#include <string.h>
#include <time.h>

uint64_t rsqrt_single(uint32_t make, uint32_t word, uint32_t mode);

static const mpfr_rnd_t roundings[4] = { MPFR_RNDN, MPFR_RNDZ, MPFR_RNDU, MPFR_RNDD };
static const uint32_t inexact = 1, invalid = 2, division_by_zero = 4;

static mpfr_t operand, root;
static uint64_t compared, differences;

static uint64_t answer(uint32_t word, uint32_t marks)
{
    return word | (uint64_t)marks << 32;
}

/* What IEEE 754's rSqrt gives, subnormal operands read as zeros. */
static uint64_t expected(uint32_t word, uint32_t mode)
{
    uint32_t exponent = word >> 23 & 0xff, fraction = word & 0x7fffff, result;
    float value;
    if (exponent == 255 && fraction != 0)
        return answer(0x7fc00000, fraction >> 22 ? 0 : invalid);
    if (exponent == 0)
        return answer(word >> 31 ? 0xff800000 : 0x7f800000, division_by_zero);
    if (word >> 31)
        return answer(0x7fc00000, invalid);
    memcpy(&value, &word, sizeof value);
    mpfr_set_flt(operand, value, MPFR_RNDN);
    int ternary = mpfr_rec_sqrt(root, operand, roundings[mode]);
    value = mpfr_get_flt(root, MPFR_RNDN);
    memcpy(&result, &value, sizeof result);
    return answer(result, ternary ? inexact : 0);
}

static void compare(uint32_t word)
{
    for (uint32_t mode = 0; mode < 4; mode++) {
        uint64_t right = expected(word, mode);
        for (uint32_t make = 0; make < 2; make++) {
            uint64_t got = rsqrt_single(make, word, mode);
            compared++;
            if (got != right && differences++ < 20)
                printf("word %08" PRIx32 " mode %" PRIu32 " make %" PRIu32 ": %" PRIx64 ", MPFR %" PRIx64 "\n", word, mode, make, got, right);
        }
    }
}

static void progress(const char *what, uint32_t done, uint32_t all)
{
    fprintf(stderr, "\r%s: %3" PRIu32 " %%", what, (uint32_t)((uint64_t)done * 100 / all));
    if (done == all)
        fprintf(stderr, "\n");
}

int main(void)
{
    time_t begun = time(NULL);
    mpfr_init2(operand, 24);
    mpfr_init2(root, 24);
    if (rsqrt_single(2, 0, 4) != (uint64_t)19 << 40 || rsqrt_single(0, 0, 4) != (uint64_t)4 << 40)
        printf("a refusal is wrong\n"), differences++;
    for (uint32_t parity = 0; parity < 2; parity++)
        for (uint32_t fraction = 0; fraction < 1u << 23; fraction++) {
            compare((126 + parity) << 23 | fraction);
            if (fraction % (1u << 18) == 0)
                progress(parity ? "odd exponent" : "even exponent", fraction, 1u << 23);
        }
    progress("significands", 1, 1);
    uint32_t words = 0;
    for (uint32_t top = 0; top < 512; top++) {
        static const uint32_t edges[] = { 0, 1, 2, 3, 0x3fffff, 0x400000, 0x400001, 0x7ffffd, 0x7ffffe, 0x7fffff };
        for (size_t i = 0; i < sizeof edges / sizeof *edges; i++)
            compare(top << 23 | edges[i]);
        uint64_t state = top;
        for (int i = 0; i < 4000; i++) {
            state = state * 6364136223846793005u + 1442695040888963407u;
            compare(top << 23 | (uint32_t)(state >> 41));
        }
        words++;
        progress("all exponents and both signs", words, 512);
    }
    printf("%" PRIu64 " words, modes and makes compared with MPFR %s, %" PRIu64 " differences, %ld seconds\n", compared, mpfr_get_version(), differences,
           (long)(time(NULL) - begun));
    return differences != 0;
}
