/* The reciprocal square root twin, for simulators in C. */
#ifndef RSQRT_TWIN_H
#define RSQRT_TWIN_H

#include <stdint.h>

#ifdef __cplusplus
extern "C" {
#endif

/* Makes: a selector and a number form. */
#define RSQRT_RADIX2_PLAIN 0u
#define RSQRT_RADIX4_CARRY_SAVE 1u

/* Marks of a result. */
#define RSQRT_INEXACT 1u

/* Refusals, in the order in which they are checked. */
#define RSQRT_REFUSED_MAKE 19u   /* make above 1 */
#define RSQRT_REFUSED_WIDTH 1u   /* K outside 4 to 28 */
#define RSQRT_REFUSED_PLACES 2u  /* Q odd or outside 2 to 28 */
#define RSQRT_REFUSED_RANGE 3u   /* x outside 2^(K-2) to 2^K - 1 */

/*
 * Works the operand X = x / 2^K off to Q places, with the digits that the make's circuit chooses.
 * Returns f + marks * 2^32, where f is the largest number with X * (f / 2^Q)^2 at most 1,
 * or a refusal's number * 2^40. It keeps no state and may be called from any thread.
 */
uint64_t rsqrt_fixed(uint32_t make, uint32_t k, uint32_t q, uint32_t x);

/* The parts of what rsqrt_fixed returned; the refusal is 0 where the call was taken. */
static inline uint32_t rsqrt_result(uint64_t answer) { return (uint32_t)answer; }
static inline uint32_t rsqrt_marks(uint64_t answer) { return (uint32_t)(answer >> 32) & 0xffu; }
static inline uint32_t rsqrt_refusal(uint64_t answer) { return (uint32_t)(answer >> 40); }

#ifdef __cplusplus
}
#endif

#endif
