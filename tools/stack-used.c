/* How much stack each call uses: it runs in a thread whose stack is painted before, and the paint that is left is counted. */
#define _POSIX_C_SOURCE 200809L
#include <pthread.h>
#include <stdio.h>
#include <string.h>

#include "corbelrush.h"

enum { W = 16384, H = 64, BYTES = 4 * W * H, STACK = 4 << 20, PAINT = 0xA5, DEEPEST = 14 };

static uint8_t stack[STACK] __attribute__((aligned(4096)));
static uint8_t picture[BYTES], scratch[BYTES], copy[BYTES];
static float weights[33];
static uint32_t numerators[33];
static uint32_t table[W * H];
static corbelrush_point points[90000];

static void *nothing(void *arg) { return arg; }

static void *blur(void *arg)
{
    for (uint32_t edge = 0; edge < 4; edge++)
        corbelrush_blur(picture, BYTES, W, H, scratch, BYTES, weights, 33, *(uint32_t *)arg, 1.0f, edge);
    return arg;
}

static void *whole(void *arg)
{
    for (uint32_t edge = 0; edge < 4; edge++)
        corbelrush_blur_whole(picture, BYTES, W, H, scratch, BYTES, numerators, 33, *(uint32_t *)arg, edge);
    return arg;
}

static void *share(void *arg)
{
    uint64_t found;
    for (uint32_t edge = 0; edge < 4; edge++) corbelrush_share(W, W, numerators, 33, 3, edge, W, 1, &found);
    return arg;
}

static void *shares(void *arg)
{
    uint64_t found;
    for (uint32_t edge = 0; edge < 4; edge++) corbelrush_shares(W, W, numerators, 33, 3, edge, W, points, 90000, &found);
    return arg;
}

static void *area(void *arg)
{
    uint64_t sum;
    corbelrush_area_build(picture, BYTES, W, H, table, W * H);
    corbelrush_area_box(table, W * H, W, H, 1, 1, W - 1, H - 1, &sum);
    corbelrush_area_update(table, W * H, W, H, 1, 0, 255);
    return arg;
}

static void *shift(void *arg)
{
    corbelrush_shift(picture, BYTES, W, H, 3.0f, -5.0f);
    corbelrush_shift(picture, BYTES, W, H, -8000.0f, 5.0f);
    return arg;
}

static void *shadow(void *arg)
{
    for (uint32_t edge = 0; edge < 4; edge++)
        corbelrush_shadow(picture, BYTES, W, H, scratch, BYTES, copy, BYTES, weights, 33, *(uint32_t *)arg, edge, 3.0f, -5.0f,
                          1.0f, 0.5f, 0.5f, 0.5f, 0.5f, 1);
    return arg;
}

static size_t used(void *(*run)(void *), void *arg)
{
    pthread_attr_t attributes;
    pthread_t thread;
    size_t left = 0;
    memset(stack, PAINT, STACK);
    pthread_attr_init(&attributes);
    pthread_attr_setstack(&attributes, stack, STACK);
    pthread_create(&thread, &attributes, run, arg);
    pthread_join(thread, NULL);
    while (left < STACK && stack[left] == PAINT) left++;
    return STACK - left;
}

int main(void)
{
    used(nothing, NULL); /* the first thread binds symbols, on its own stack */
    size_t thread = used(nothing, NULL);
    for (int i = 0; i < 33; i++) {
        weights[i] = 1.0f / 64;
        numerators[i] = 1024;
    }
    for (uint32_t n = 0; n <= DEEPEST; n++)
        printf("n = %2u: blur %zu bytes, in whole numbers %zu, shadow %zu\n", (unsigned)n, used(blur, &n) - thread,
               used(whole, &n) - thread, used(shadow, &n) - thread);
    printf("shift: %zu bytes\n", used(shift, NULL) - thread);
    printf("share: %zu bytes, a list of them %zu\n", used(share, NULL) - thread, used(shares, NULL) - thread);
    printf("area sums: %zu bytes\n", used(area, NULL) - thread);
    return 0;
}
