/*
 * How long the other forms of a call take beside the first: form-speed [SIDE [ROUNDS]]
 *   blur and shadow on four planes beside those on a picture, the blur in whole numbers beside the one in floats with the
 *   same weights, and converting to planes and back beside a copy of the bytes.
 * Both of a pair are in this process and take turns, on one input; a turn is one call, or as many as take some milliseconds.
 * Times are processor time. A line has the milliseconds of both, the median of all rounds, the ratio of the medians and that
 * of the least. It links with any archive of the library.
 */
#define _POSIX_C_SOURCE 200809L
#include <stdio.h>
#include <stdlib.h>
#include <string.h>
#include <time.h>

#include "corbelrush.h"

enum { MOST_ROUNDS = 99, PIXELS_A_TURN = 1 << 18 };

/* What a call works on: input is put back into bytes before each. */
static struct {
    uint32_t side, taps, n, edge, over;
    size_t length;
    uint8_t *input, *bytes, *scratch, *copy;
    float weights[CORBELRUSH_MAX_TAPS];
    uint32_t numerators[CORBELRUSH_MAX_TAPS];
} on;
#define SIDES on.bytes, on.length, on.side, on.side
#define WORK on.scratch, on.length
#define KERNEL on.weights, on.taps, on.n
#define SHADOW WORK, on.copy, on.length, KERNEL, on.edge, 3, -2, 1, 0.25f, 0.5f, 0.75f, 0.8f, on.over

typedef uint32_t call(void);
static uint32_t blur(void) { return corbelrush_blur(SIDES, WORK, KERNEL, 1, on.edge); }
static uint32_t blur_planes(void) { return corbelrush_blur_planes(SIDES, WORK, KERNEL, 1, on.edge); }
static uint32_t blur_whole(void) { return corbelrush_blur_whole(SIDES, WORK, on.numerators, on.taps, on.n, on.edge); }
static uint32_t shadow(void) { return corbelrush_shadow(SIDES, SHADOW); }
static uint32_t shadow_planes(void) { return corbelrush_shadow_planes(SIDES, SHADOW); }
static uint32_t to_planes(void) { return corbelrush_to_planes(SIDES, WORK); }
static uint32_t from_planes(void) { return corbelrush_from_planes(SIDES, WORK); }
static uint32_t copy(void)
{
    memcpy(on.scratch, on.bytes, on.length);
    return 0;
}

static double now(void)
{
    struct timespec t;
    clock_gettime(CLOCK_PROCESS_CPUTIME_ID, &t);
    return 1e3 * (double)t.tv_sec + 1e-6 * (double)t.tv_nsec;
}

static double turn(call *work)
{
    int calls = (int)(PIXELS_A_TURN / (on.length / 4)) + 1;
    double time = 0;
    for (int i = 0; i < calls; i++) {
        memcpy(on.bytes, on.input, on.length);
        double begun = now();
        if (work() != 0) exit(1);
        time += now() - begun;
    }
    return time / calls;
}

static int rising(const void *a, const void *b)
{
    double x = *(const double *)a, y = *(const double *)b;
    return (x > y) - (x < y);
}

static void beside(const char *name, call *first, call *other, int rounds)
{
    double times[2][MOST_ROUNDS];
    turn(first), turn(other); /* the first touches the memory */
    for (int i = 0; i < rounds; i++) times[0][i] = turn(first), times[1][i] = turn(other);
    for (int k = 0; k < 2; k++) qsort(times[k], (size_t)rounds, sizeof(double), rising);
    double a = times[0][rounds / 2], b = times[1][rounds / 2];
    printf("%s, %u taps, n = %u, edge %u: %.3f, %.3f ms, ratio %.3f, of the least %.3f\n", name, on.taps, on.n, on.edge, a, b, b / a, times[1][0] / times[0][0]);
}

/* Numerators that sum to 65536, and their weights. */
static void kernel(uint32_t taps)
{
    uint32_t left = 65536;
    on.taps = taps;
    for (uint32_t j = 0; j < taps; j++) {
        on.numerators[j] = j + 1 < taps ? 65536 / taps + j % 2 : left;
        left -= on.numerators[j];
        on.weights[j] = (float)on.numerators[j] / 65536.0f;
    }
}

static void on_planes(int rounds)
{
    beside("copy, to planes", copy, to_planes, rounds);
    beside("copy, from planes", copy, from_planes, rounds);
    for (on.edge = 0; on.edge < 4; on.edge++)
        for (on.n = 0; on.n < 3; on.n += 2) {
            kernel(5);
            beside("blur, on planes", blur, blur_planes, rounds);
            kernel(13);
            beside("blur, on planes", blur, blur_planes, rounds);
            for (on.over = 0; on.over < 2; on.over++) beside(on.over ? "shadow with original, on planes" : "shadow, on planes", shadow, shadow_planes, rounds);
        }
}

static void in_whole_numbers(int rounds)
{
    on.n = 0;
    for (on.edge = 0; on.edge < 4; on.edge++)
        for (uint32_t taps = 5; taps <= 33; taps += taps == 5 ? 8 : 20) {
            kernel(taps);
            beside("blur, in whole numbers", blur, blur_whole, rounds);
        }
    on.edge = 0;
    kernel(3);
    for (uint32_t j = 0; j < 3; j++) on.numerators[j] = j == 1 ? 65536 : 0, on.weights[j] = j == 1;
    beside("0, 65536, 0: blur, in whole numbers", blur, blur_whole, rounds);
}

int main(int count, char **words)
{
    int rounds = count > 2 ? atoi(words[2]) : 9;
    uint64_t state = 1;
    if (rounds < 1 || rounds > MOST_ROUNDS) return 2;
    on.side = count > 1 ? (uint32_t)atoi(words[1]) : 4096;
    on.length = 4 * (size_t)on.side * on.side;
    uint8_t **buffers[] = {&on.input, &on.bytes, &on.scratch, &on.copy};
    for (int i = 0; i < 4; i++)
        if ((*buffers[i] = aligned_alloc(64, (on.length + 63) / 64 * 64)) == NULL) return 2;
    for (size_t i = 0; i < on.length; i++) {
        state = state * 6364136223846793005u + 1442695040888963407u;
        on.input[i] = (uint8_t)(state >> 33);
    }
    on_planes(rounds);
    in_whole_numbers(rounds);
}
