/* A plain C model of the recurrence: the same makes, checks, words and answers as rsqrt_fixed, as a C programmer would write it. */
#include "model.h"

struct words {
    uint64_t first, second;
};

static int64_t radix2_digit(int64_t w)
{
    return w <= -2 ? -1 : w >= 1;
}

static uint64_t radix2_plain(uint32_t k, uint32_t q, uint32_t x)
{
    uint32_t s = (uint32_t)1 << q, below = 0;
    uint64_t residual = ((uint64_t)1 << (k + q)) - ((uint64_t)x << q), product = (uint64_t)x << q;
    for (uint32_t place = q; place-- > 0;) {
        residual <<= 1;
        int64_t digit = radix2_digit((int64_t)residual >> (k + q - 2));
        int64_t term = (int64_t)((uint64_t)x << place);
        residual -= (uint64_t)(2 * digit) * product;
        residual -= (uint64_t)(digit * digit * term);
        product += (uint64_t)(digit * term);
        uint32_t s_next = digit >= 0 ? s + ((uint32_t)digit << place) : below + ((uint32_t)(2 + digit) << place);
        below = digit > 0 ? s + ((uint32_t)(digit - 1) << place) : below + ((uint32_t)(1 + digit) << place);
        s = s_next;
    }
    return ((uint64_t)1 << 32) + (s - ((int64_t)residual < 0));
}

static struct words carry(struct words w, uint64_t n)
{
    struct words r = { w.first ^ w.second ^ n, ((w.first & w.second) | (w.first & n) | (w.second & n)) << 1 };
    return r;
}

static int64_t estimate(struct words w, uint32_t u)
{
    return (int64_t)((w.first >> u << u) + (w.second >> u << u)) >> u;
}

static int64_t radix4_digit(int64_t w, int64_t p)
{
    int64_t m1 = (p + 1) >> 2, m2 = (3 * (p + 1)) >> 2;
    return w >= m2 ? 2 : w >= m1 ? 1 : w >= -m1 ? 0 : w >= -m2 ? -1 : -2;
}

static uint64_t radix4_carry_save(uint32_t k, uint32_t q, uint32_t x)
{
    uint64_t one = (uint64_t)1 << k;
    uint32_t halves = 8 * (uint64_t)x < 3 * one ? 4 : 4 * (uint64_t)x < 3 * one ? 3 : 2;
    uint32_t s = halves << (q - 1), below = s - ((uint32_t)1 << q);
    struct words residual = { ((uint64_t)1 << (k + q)) - ((uint64_t)x * halves * halves << (q - 2)), 0 };
    struct words product = { (uint64_t)x * s, 0 };
    for (uint32_t place = q; place > 0;) {
        place -= 2;
        struct words shifted = { residual.first << 2, residual.second << 2 };
        int64_t digit = radix4_digit(estimate(shifted, k + q - 4), estimate(product, k + q - 6));
        int64_t term = (int64_t)((uint64_t)x << place);
        uint64_t multiple = (uint64_t)(-2 * digit);
        residual = carry(carry(carry(shifted, product.first * multiple), product.second * multiple), (uint64_t)(-digit * digit * term));
        product = carry(product, (uint64_t)(digit * term));
        uint32_t s_next = digit >= 0 ? s + ((uint32_t)digit << place) : below + ((uint32_t)(4 + digit) << place);
        below = digit > 0 ? s + ((uint32_t)(digit - 1) << place) : below + ((uint32_t)(3 + digit) << place);
        s = s_next;
    }
    return ((uint64_t)1 << 32) + (s - ((int64_t)(residual.first + residual.second) < 0));
}

uint64_t model_fixed(uint32_t make, uint32_t k, uint32_t q, uint32_t x)
{
    if (make > 1)
        return (uint64_t)19 << 40;
    if (k < 4 || k > 28)
        return (uint64_t)1 << 40;
    if (q < 2 || q > 28 || q % 2 != 0)
        return (uint64_t)2 << 40;
    if (x < (uint32_t)1 << (k - 2) || x >= (uint32_t)1 << k)
        return (uint64_t)3 << 40;
    if (x == (uint32_t)1 << (k - 2))
        return (uint64_t)1 << (q + 1);
    return make == 0 ? radix2_plain(k, q, x) : radix4_carry_save(k, q, x);
}
