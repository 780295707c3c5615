// Nanoseconds of a sample through two archives of the library, side by side: corbelrush_sample of the one beside before_corbelrush_sample of
// the other, in every mode, at coordinates inside, within one size of the border and far, in scan order and at random.
//   objcopy $(nm -g BEFORE/libcorbelrush.a | sed -n 's/.* T \(corbelrush_.*\)/--redefine-sym \1=before_\1/p') BEFORE/libcorbelrush.a before.a
//   cc -O2 -Iinclude tools/sample-times.c AFTER/libcorbelrush.a before.a -o sample-times && ./sample-times [WIDTH HEIGHT]
// A cell is the median of 31 rounds, in each of which the two take turns; its two sums of pixels must be one.
#include "corbelrush.h"
#include <stdint.h>
#include <stdio.h>
#include <stdlib.h>
#include <time.h>

enum { ROUNDS = 31, POINTS = 4096, TURNS = 8 };

uint32_t before_corbelrush_sample(const uint8_t *, size_t, uint32_t, uint32_t, uint32_t, int32_t, int32_t);

static double now(void) {
    struct timespec t;
    clock_gettime(CLOCK_MONOTONIC, &t);
    return t.tv_sec * 1e9 + t.tv_nsec;
}

static int order(const void *a, const void *b) {
    double x = *(const double *)a, y = *(const double *)b;
    return (x > y) - (x < y);
}

static uint32_t seed = 1;

static uint32_t number(void) {
    seed = seed * 1664525 + 1013904223;
    return seed >> 8;
}

// v of 0 to 2s - 1, as a coordinate within one size of the border of s: -s to -1, then s to 2s - 1
static int32_t beside(int32_t v, int32_t s) { return v < s ? v - s : v; }

// a coordinate more than three sizes off
static int32_t far_off(int32_t s) {
    int32_t v = (int32_t)(number() << 8 | number() >> 16);
    return v > -3 * s && v < 3 * s ? v + 100 * s : v;
}

static void fill(int kind, int random, int32_t w, int32_t h, int32_t *x, int32_t *y) {
    for (int32_t i = 0; i < POINTS; i++) {
        if (kind == 0) {
            x[i] = random ? (int32_t)(number() % w) : i % w;
            y[i] = random ? (int32_t)(number() % h) : i / w % h;
        } else if (kind == 1) {
            x[i] = beside(random ? (int32_t)(number() % (2 * w)) : i % (2 * w), w);
            y[i] = beside(random ? (int32_t)(number() % (2 * h)) : i / (2 * w) % (2 * h), h);
        } else {
            x[i] = random ? far_off(w) : 100000000 + i % (3 * w);
            y[i] = random ? far_off(h) : -90000000 + i / (3 * w);
        }
    }
}

int main(int argc, char **argv) {
    static int32_t x[POINTS], y[POINTS];
    static double before[ROUNDS], after[ROUNDS];
    const char *kinds[] = {"inside", "near", "far"}, *orders[] = {"scan", "random"}, *modes[] = {"Duplicate", "Wrap", "Mirror", "None"};
    uint32_t w = argc > 2 ? atoi(argv[1]) : 160, h = argc > 2 ? atoi(argv[2]) : 120;
    size_t len = (size_t)4 * w * h;
    uint8_t *picture = malloc(len);
    for (size_t i = 0; i < len; i++) picture[i] = (uint8_t)(i * 7);
    for (int kind = 0; kind < 3; kind++)
        for (int random = 0; random < 2; random++) {
            fill(kind, random, w, h, x, y);
            for (uint32_t mode = 0; mode < 4; mode++) {
                uint32_t old = 0, new = 0;
                for (int r = 0; r < ROUNDS; r++) {
                    double start = now();
                    for (int k = 0; k < TURNS * POINTS; k++)
                        old += before_corbelrush_sample(picture, len, w, h, mode, x[k % POINTS], y[k % POINTS]);
                    double middle = now();
                    for (int k = 0; k < TURNS * POINTS; k++)
                        new += corbelrush_sample(picture, len, w, h, mode, x[k % POINTS], y[k % POINTS]);
                    before[r] = (middle - start) / (TURNS * POINTS);
                    after[r] = (now() - middle) / (TURNS * POINTS);
                }
                qsort(before, ROUNDS, sizeof *before, order);
                qsort(after, ROUNDS, sizeof *after, order);
                double b = before[ROUNDS / 2], a = after[ROUNDS / 2];
                printf("| %s, %s, %s | %.2f | %.2f | %.2f |%s\n", kinds[kind], orders[random], modes[mode], b, a, a / b, old == new ? "" : " DIFFERS");
            }
        }
}
