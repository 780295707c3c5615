/*
 * How near a blur is to what the processor and the memory allow: floor-speed [SIDE [ROUNDS]]
 *   Memory: a copy of the picture, and setting as many bytes, as a blur's two passes and its clearing of the scratch move them
 *   at the least. Sums: as many products and sums in binary32 as both passes make, with nothing else: no load, no store, no
 *   rounding, in vectors of 16 bytes and, where the processor has them, of 32 and 64.
 * All are in this process and take turns. Times are processor time in milliseconds, the median of all rounds. Compile it with
 * -ffp-contract=off: a product and a sum are two operations in the library. It links with any archive of the library.
 */
#define _POSIX_C_SOURCE 200809L
#include <stdio.h>
#include <stdlib.h>
#include <string.h>
#include <time.h>

#include "corbelrush.h"

#if defined(__x86_64__)
#define KEEP(lanes) __asm__ volatile("" : "+v"(lanes)) /* a value that the compiler knows nothing of */
#define HAS(feature) __builtin_cpu_supports(feature)
#define FOR(feature) __attribute__((target(feature)))
#else
#define KEEP(lanes) __asm__ volatile("" : "+w"(lanes))
#endif

enum { MOST_ROUNDS = 99 };

static double now(void)
{
    struct timespec t;
    clock_gettime(CLOCK_PROCESS_CPUTIME_ID, &t);
    return 1e3 * (double)t.tv_sec + 1e-6 * (double)t.tv_nsec;
}

/* So many products and sums, twelve sums under way at a time, which hides how long one takes. */
#define TWELVE(DO) DO(a) DO(b) DO(c) DO(d) DO(e) DO(f) DO(g) DO(h) DO(i) DO(j) DO(k) DO(l)
#define ZERO(sum) vector sum = {0};
#define ADD(sum)                                                                                                         \
    KEEP(value);                                                                                                         \
    sum += value * weight;                                                                                               \
    KEEP(sum);
#define RATE(name, bytes, kind)                                                                                          \
    kind static double name(double products)                                                                             \
    {                                                                                                                    \
        typedef float vector __attribute__((vector_size(bytes)));                                                        \
        vector value = {0}, weight = {0};                                                                                \
        size_t turns = (size_t)(products / (3 * (bytes)));                                                               \
        TWELVE(ZERO)                                                                                                     \
        KEEP(weight);                                                                                                    \
        double begun = now();                                                                                            \
        for (size_t turn = 0; turn < turns; turn++) { TWELVE(ADD) }                                                      \
        return now() - begun;                                                                                            \
    }
RATE(rate_16, 16, )
#if defined(__x86_64__)
RATE(rate_32, 32, FOR("avx2"))
RATE(rate_64, 64, FOR("avx512f"))
#endif

static int rising(const void *a, const void *b)
{
    double x = *(const double *)a, y = *(const double *)b;
    return (x > y) - (x < y);
}

static double median(double *times, int rounds)
{
    qsort(times, (size_t)rounds, sizeof(double), rising);
    return times[rounds / 2];
}

static void compare(uint32_t side, uint32_t taps, int rounds, const uint8_t *input, uint8_t *bytes, uint8_t *scratch)
{
    static double library[MOST_ROUNDS], memory[MOST_ROUNDS], sums[3][MOST_ROUNDS];
    size_t length = 4 * (size_t)side * side;
    double products = 2.0 * (double)length * taps;
    float weights[CORBELRUSH_MAX_TAPS];
    int widths = 1;
    for (uint32_t j = 0; j < taps; j++) weights[j] = 1.0f / (float)(taps + j % 3);
    for (int i = 0; i < rounds; i++) {
        memcpy(bytes, input, length);
        double begun = now();
        if (corbelrush_blur(bytes, length, side, side, scratch, length, weights, taps, 0, 1, CORBELRUSH_DUPLICATE)) exit(1);
        library[i] = now() - begun;
        begun = now();
        memcpy(scratch, bytes, length);
        memcpy(bytes, scratch, length);
        memset(scratch, 0, length);
        memory[i] = now() - begun;
        sums[0][i] = rate_16(products);
#if defined(__x86_64__)
        if (HAS("avx2")) sums[1][i] = rate_32(products), widths = 2;
        if (HAS("avx512f")) sums[2][i] = rate_64(products), widths = 3;
#endif
    }
    printf("%u taps: library %.1f, memory %.1f, sums", taps, median(library, rounds), median(memory, rounds));
    for (int k = 0; k < widths; k++) printf(" %.1f (%d bytes)", median(sums[k], rounds), 16 << k);
    printf("\n");
}

int main(int count, char **words)
{
    uint32_t side = count > 1 ? (uint32_t)atoi(words[1]) : 4096;
    int rounds = count > 2 ? atoi(words[2]) : 9;
    size_t length = 4 * (size_t)side * side;
    uint8_t *input = malloc(length), *bytes = malloc(length), *scratch = malloc(length);
    uint64_t state = 1;
    if (rounds < 1 || rounds > MOST_ROUNDS || input == NULL || bytes == NULL || scratch == NULL) return 2;
    for (size_t i = 0; i < length; i++) {
        state = state * 6364136223846793005u + 1442695040888963407u;
        input[i] = (uint8_t)(state >> 33);
    }
    memset(scratch, 1, length);
    for (uint32_t taps = 5; taps <= 33; taps += taps == 5 ? 8 : 20) compare(side, taps, rounds, input, bytes, scratch);
}
