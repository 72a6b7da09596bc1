/*
 * Measures rsqrt_fixed beside the C model, in turns in one run, and prints the ratio of their times.
 *
 *   bench                          all makes and sizes
 *   bench count WHO MAKE K Q N     N calls of WHO (twin or model), for an instruction counter
 */
#include <inttypes.h>
#include <stdio.h>
#include <stdlib.h>
#include <string.h>
#include <time.h>

#include "../include/rsqrt_twin.h"
#include "model.h"

enum { OPERANDS = 4096, ROUNDS = 41 };

typedef uint64_t (*call)(uint32_t, uint32_t, uint32_t, uint32_t);

static uint32_t operands[OPERANDS];
static volatile uint64_t sink;

static void fill(uint32_t k)
{
    uint64_t state = 0x9e3779b97f4a7c15u;
    for (int i = 0; i < OPERANDS; i++) {
        state = state * 6364136223846793005u + 1442695040888963407u;
        uint32_t low = (uint32_t)1 << (k - 2);
        operands[i] = low + (uint32_t)((state >> 33) % (3 * (uint64_t)low));
    }
}

static double time_of(call f, uint32_t make, uint32_t k, uint32_t q)
{
    struct timespec a, b;
    uint64_t sum = 0;
    clock_gettime(CLOCK_MONOTONIC, &a);
    for (int i = 0; i < OPERANDS; i++)
        sum += f(make, k, q, operands[i]);
    clock_gettime(CLOCK_MONOTONIC, &b);
    sink = sum;
    return ((double)(b.tv_sec - a.tv_sec) * 1e9 + (double)(b.tv_nsec - a.tv_nsec)) / OPERANDS;
}

static int ascending(const void *a, const void *b)
{
    double x = *(const double *)a, y = *(const double *)b;
    return x < y ? -1 : x > y;
}

static void measure(uint32_t make, uint32_t k, uint32_t q)
{
    double twin[ROUNDS], model[ROUNDS];
    fill(k);
    for (int i = 0; i < OPERANDS; i++)
        if (rsqrt_fixed(make, k, q, operands[i]) != model_fixed(make, k, q, operands[i])) {
            printf("the model differs at make %" PRIu32 " K %" PRIu32 " Q %" PRIu32 " x %" PRIu32 "\n", make, k, q, operands[i]);
            exit(1);
        }
    for (int i = 0; i < ROUNDS; i++) {
        twin[i] = time_of(rsqrt_fixed, make, k, q);
        model[i] = time_of(model_fixed, make, k, q);
    }
    qsort(twin, ROUNDS, sizeof *twin, ascending);
    qsort(model, ROUNDS, sizeof *model, ascending);
    printf("%-20s K %2" PRIu32 " Q %2" PRIu32 "  twin %7.1f ns  model %7.1f ns  ratio %.2f\n", make == 0 ? "radix 2 plain" : "radix 4 carry-save", k, q,
           twin[ROUNDS / 2], model[ROUNDS / 2], twin[ROUNDS / 2] / model[ROUNDS / 2]);
}

int main(int argc, char **argv)
{
    if (argc == 7 && strcmp(argv[1], "count") == 0) {
        call f = strcmp(argv[2], "twin") == 0 ? rsqrt_fixed : model_fixed;
        uint32_t make = (uint32_t)atoi(argv[3]), k = (uint32_t)atoi(argv[4]), q = (uint32_t)atoi(argv[5]);
        fill(k);
        for (int i = 0; i < atoi(argv[6]); i++)
            sink = f(make, k, q, operands[i % OPERANDS]);
        return 0;
    }
    for (uint32_t make = 0; make <= 1; make++) {
        measure(make, 25, 24);
        measure(make, 28, 28);
    }
    return 0;
}
