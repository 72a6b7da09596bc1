/* A plain C model of the same recurrence, to measure the twin against. */
#include <stdint.h>

uint64_t model_fixed(uint32_t make, uint32_t k, uint32_t q, uint32_t x);
