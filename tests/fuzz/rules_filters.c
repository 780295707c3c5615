/* Rules 2, 3, 7 and 8: the checks of pictures and kernels, the shift, the shadow, and the three filters as calls. */
#include <math.h>
#include <string.h>

#include "rules.h"

uint64_t bytes_of(const Case *c) { return 4 * (uint64_t)c->w * c->h; }

uint32_t sides_refused(const Case *c) { return c->w == 0 || c->w > SIDE || c->h == 0 || c->h > SIDE ? 1 : 0; }

uint32_t picture_refused(const Case *c)
{
    if (sides_refused(c)) return 1;
    return c->count[MAIN] != bytes_of(c) ? 2 : 0;
}

int works_short(const Case *c, int both) { return c->count[SECOND] < bytes_of(c) || (both && c->count[THIRD] < bytes_of(c)); }

void works_cleared(const Case *c, int both)
{
    memset(after[SECOND].bytes, 0, bytes_of(c));
    if (both) memset(after[THIRD].bytes, 0, bytes_of(c));
}

int outside_unit(float value) { return !(value >= 0.0f && value <= 1.0f); }

uint32_t kernel_refused(const float *weights, size_t taps, uint32_t n)
{
    if (taps == 0 || taps > 33) return 4;
    for (size_t j = 0; j < taps; j++)
        if (outside_unit(weights[j])) return 5;
    return n > 14 ? 6 : 0;
}

static Kernel floats_of(const Case *c)
{
    return (Kernel){.weights = after[KERNEL].floats, .taps = c->count[KERNEL], .edge = c->edge};
}

uint32_t rule_blur(Case *c)
{
    Kernel kernel = floats_of(c);
    uint32_t refused = picture_refused(c);
    if (!refused && works_short(c, 0)) refused = 3;
    if (!refused) refused = kernel_refused(kernel.weights, kernel.taps, c->n);
    if (!refused && !isfinite(c->strength)) refused = 7;
    if (!refused && c->edge > 3) refused = 9;
    if (refused) return refused;
    if (c->strength > 0) blur_picture(after[MAIN].bytes, c->w, c->h, &kernel, c->n);
    works_cleared(c, 0);
    return 0;
}

uint32_t rule_blur_whole(Case *c)
{
    Kernel kernel = {.numerators = after[KERNEL].words, .taps = c->count[KERNEL], .edge = c->edge};
    uint64_t sum = 0;
    uint32_t refused = picture_refused(c);
    if (!refused && works_short(c, 0)) refused = 3;
    if (!refused && (kernel.taps == 0 || kernel.taps > 33)) refused = 4;
    if (refused) return refused;
    for (size_t j = 0; j < kernel.taps; j++) sum += kernel.numerators[j];
    if (sum > 65536) return 14;
    if (c->n > 14) return 6;
    if (c->edge > 3) return 9;
    blur_picture(after[MAIN].bytes, c->w, c->h, &kernel, c->n);
    works_cleared(c, 0);
    return 0;
}

/* Rule 7.1: the nearest whole number, halves away from zero. */
static double whole_offset(float offset) { return offset < 0 ? -floor(0.5 - (double)offset) : floor((double)offset + 0.5); }

void shift_picture(uint8_t *picture, uint32_t w, uint32_t h, float dx, float dy)
{
    static uint8_t old[ROOM];
    double right = whole_offset(dx), down = whole_offset(dy);
    memcpy(old, picture, 4 * (size_t)w * h);
    for (uint32_t y = 0; y < h; y++)
        for (uint32_t x = 0; x < w; x++) {
            double column = x - right, row = y - down;
            uint8_t *pixel = picture + 4 * ((size_t)y * w + x);
            if (column >= 0 && column < w && row >= 0 && row < h)
                memcpy(pixel, old + 4 * ((size_t)row * w + (size_t)column), 4);
            else
                memset(pixel, 0, 4);
        }
}

uint32_t rule_shift(Case *c)
{
    uint32_t refused = picture_refused(c);
    if (!refused && (!isfinite(c->dx) || !isfinite(c->dy))) refused = 7;
    if (!refused) shift_picture(after[MAIN].bytes, c->w, c->h, c->dx, c->dy);
    return refused;
}

/* Rules 8.3 to 8.5: the shadow's pixel where the copy has this alpha. */
static void coloured(uint8_t *shadow, uint8_t alpha, const float colour[4])
{
    float share = (float)alpha / 255.0f, product = share * colour[3], held = product < 1.0f ? product : 1.0f;
    float scaled = held * 255.0f;
    shadow[3] = rounded(scaled);
    for (int i = 0; i < 3; i++) {
        float component = colour[i] * 255.0f;
        shadow[i] = (uint8_t)((rounded(component) * shadow[3] + 127) / 255);
    }
}

/* Rule 8.6: a channel of the original, of alpha a, over the shadow's. */
static uint8_t over(uint8_t src, uint8_t dst, uint8_t a)
{
    float rest = 1.0f - (float)a / 255.0f, below_it = (float)dst / 255.0f * rest, sum = (float)src / 255.0f + below_it;
    float scaled = sum * 255.0f;
    return rounded(scaled);
}

void shadow_picture(uint8_t *picture, const Case *c, const Kernel *kernel)
{
    static uint8_t copy[ROOM];
    size_t area = (size_t)c->w * c->h;
    memcpy(copy, picture, 4 * area);
    shift_picture(copy, c->w, c->h, c->dx, c->dy);
    if (c->strength > 0) blur_picture(copy, c->w, c->h, kernel, c->n);
    for (size_t i = 0; i < area; i++) {
        uint8_t shadow[4], *pixel = picture + 4 * i, alpha = pixel[3];
        coloured(shadow, copy[4 * i + 3], c->colour);
        for (int k = 0; k < 4; k++) pixel[k] = c->composite ? over(pixel[k], shadow[k], alpha) : shadow[k];
    }
}

uint32_t rule_shadow(Case *c)
{
    Kernel kernel = floats_of(c);
    uint32_t refused = picture_refused(c);
    if (!refused && works_short(c, 1)) refused = 3;
    if (!refused) refused = kernel_refused(kernel.weights, kernel.taps, c->n);
    if (!refused && !(isfinite(c->strength) && isfinite(c->dx) && isfinite(c->dy))) refused = 7;
    for (int i = 0; i < 4; i++)
        if (!refused && outside_unit(c->colour[i])) refused = 8;
    if (!refused && c->edge > 3) refused = 9;
    if (refused) return refused;
    shadow_picture(after[MAIN].bytes, c, &kernel);
    works_cleared(c, 1);
    return 0;
}
