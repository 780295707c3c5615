/* Rules 4, 5, 6 and 17: edges, halving, doubling, the convolutions and the blur. One channel at a time, line by line. */
#include <math.h>
#include <string.h>

#include "rules.h"

enum { AREA = ROOM / 4 };

static uint8_t line[SIDE], made[SIDE];

static struct {
    uint32_t w, h;
    uint8_t values[AREA];
} plane;

int64_t extended(int64_t c, uint32_t s, uint32_t edge)
{
    int64_t size = s, m = c % (edge == CORBELRUSH_MIRROR ? 2 * size : size);
    if (m < 0) m += edge == CORBELRUSH_MIRROR ? 2 * size : size;
    if (c >= 0 && c < size) return c;
    if (edge == CORBELRUSH_DUPLICATE) return c < 0 ? 0 : size - 1;
    if (edge == CORBELRUSH_WRAP) return m;
    if (edge == CORBELRUSH_MIRROR) return m < size ? m : 2 * size - 1 - m;
    return -1;
}

static uint32_t at(int64_t c, uint32_t s, uint32_t edge)
{
    int64_t i = c >= 0 && c < s ? c : extended(c, s, edge);
    return i < 0 ? 0 : line[i];
}

uint8_t rounded(double value)
{
    double whole = floor(value + 0.5);
    return whole > 255 ? 255 : (uint8_t)whole;
}

/* A pass makes `to` elements of the `from` that the line has. */
typedef void Pass(uint32_t from, uint32_t to, const Kernel *kernel);

static void halved(uint32_t from, uint32_t to, const Kernel *k)
{
    for (int64_t x = 0; x < to; x++)
        made[x] = (uint8_t)((at(2 * x - 1, from, k->edge) + 3 * at(2 * x, from, k->edge) + 3 * at(2 * x + 1, from, k->edge)
                             + at(2 * x + 2, from, k->edge) + 4) / 8);
}

static void doubled(uint32_t from, uint32_t to, const Kernel *k)
{
    for (int64_t i = 0; i < to; i++)
        made[i] = (uint8_t)((at(i % 2 ? i / 2 + 1 : i / 2 - 1, from, k->edge) + 3 * at(i / 2, from, k->edge) + 2) / 4);
}

static void convolved(uint32_t from, uint32_t to, const Kernel *k)
{
    for (int64_t x = 0; x < to; x++) {
        float sum = 0.0f;
        uint64_t whole = 0;
        for (size_t j = 0; j < k->taps; j++) {
            uint32_t sample = at(x + (int64_t)j - (int64_t)(k->taps / 2), from, k->edge);
            if (k->numerators) {
                whole += (uint64_t)sample * k->numerators[j];
            } else {
                float product = (float)sample * k->weights[j];
                sum = sum + product;
            }
        }
        made[x] = k->numerators ? (uint8_t)((whole + 32768) / 65536) : rounded(sum);
    }
}

/* Each line of the plane, w elements of it a row or h a column, replaced by the `to` elements that the pass makes of it. */
static void rows(Pass *pass, uint32_t to, const Kernel *k)
{
    static uint8_t next[AREA];
    for (uint32_t y = 0; y < plane.h; y++) {
        memcpy(line, plane.values + (size_t)y * plane.w, plane.w);
        pass(plane.w, to, k);
        memcpy(next + (size_t)y * to, made, to);
    }
    plane.w = to;
    memcpy(plane.values, next, (size_t)to * plane.h);
}

static void columns(Pass *pass, uint32_t to, const Kernel *k)
{
    static uint8_t next[AREA];
    for (uint32_t x = 0; x < plane.w; x++) {
        for (uint32_t y = 0; y < plane.h; y++) line[y] = plane.values[(size_t)y * plane.w + x];
        pass(plane.h, to, k);
        for (uint32_t y = 0; y < to; y++) next[(size_t)y * plane.w + x] = made[y];
    }
    plane.h = to;
    memcpy(plane.values, next, (size_t)to * plane.w);
}

static void blur_plane(const Kernel *k, uint32_t n)
{
    uint32_t w = plane.w, h = plane.h;
    if (n == 0) {
        rows(convolved, w, k);
        columns(convolved, h, k);
        return;
    }
    rows(halved, (w + 1) / 2, k);
    columns(halved, (h + 1) / 2, k);
    blur_plane(k, n - 1);
    rows(doubled, w, k);
    columns(doubled, h, k);
}

void blur_picture(uint8_t *picture, uint32_t w, uint32_t h, const Kernel *kernel, uint32_t n)
{
    size_t area = (size_t)w * h;
    for (int c = 0; c < 4; c++) {
        plane.w = w;
        plane.h = h;
        for (size_t i = 0; i < area; i++) plane.values[i] = picture[4 * i + c];
        blur_plane(kernel, n);
        for (size_t i = 0; i < area; i++) picture[4 * i + c] = plane.values[i];
    }
}
