/* Inputs: sides, bytes, kernels, numbers; and what is made wrong of them. */
#include "draw.h"

#include <math.h>
#include <string.h>

#include "random.h"

void draw_sides(Case *c, uint32_t small)
{
    uint32_t most = chance(4) ? small : 1 + small / 3;
    c->w = 1 + below(most);
    c->h = 1 + below(most);
    if (chance(60)) c->w = 1 + below(8 * small), c->h = 1 + below(small);
    if (chance(20)) c->w = 1, c->h = 1 + below(40 * small);
    if (chance(20)) c->h = 1, c->w = 1 + below(40 * small);
    if (chance(600)) c->w = 1, c->h = SIDE - below(2);
    if (chance(600)) c->h = 1, c->w = SIDE - below(2);
}

/* Bytes of any kind. */
static void draw_content(int buffer, size_t bytes)
{
    uint8_t *content = before[buffer].bytes;
    switch (below(6)) {
    case 0: memset(content, 255, bytes); break;
    case 1: memset(content, 0, bytes); break;
    case 2:
        for (size_t i = 0; i < bytes; i++) content[i] = (uint8_t)(chance(9) ? 255 : 0);
        break;
    case 3: /* alpha at or above the other three */
        random_bytes(content, bytes);
        for (size_t i = 0; i < bytes; i++)
            if ((i | 3) < bytes && content[i] > content[i | 3]) content[i] = (uint8_t)below(content[i | 3] + 1u);
        break;
    case 4:
        for (size_t i = 0; i < bytes; i++) content[i] = (uint8_t)(i / 4 * 3 + below(3));
        break;
    default: random_bytes(content, bytes);
    }
}

void draw_picture(Case *c)
{
    draw_sides(c, 36);
    c->count[MAIN] = 4 * (size_t)c->w * c->h;
    draw_content(MAIN, c->count[MAIN]);
}

void draw_room(Case *c, int buffer, size_t least, uint32_t element)
{
    c->count[buffer] = least + (chance(2) ? 0 : below(70));
    random_bytes(before[buffer].bytes, c->count[buffer] * element);
}

size_t draw_taps(void) { return chance(3) ? 1 + below(33) : 1 + below(5); }

void draw_numerators(Case *c)
{
    uint32_t left = chance(3) ? below(65537) : 65536;
    c->count[KERNEL] = draw_taps();
    for (size_t j = 0; j < c->count[KERNEL]; j++) {
        uint32_t some = chance(6) ? 0 : chance(4) ? left : below(1 + 2 * left / (uint32_t)c->count[KERNEL]);
        before[KERNEL].words[j] = j + 1 == c->count[KERNEL] && chance(2) ? left : some < left ? some : left;
        left -= before[KERNEL].words[j];
    }
}

/* Weights on the grid that sum to at most 1, weights between 0 and 1, equal ones, or the ends of what is taken. */
void draw_weights(float *weights, size_t taps)
{
    uint32_t kind = below(5), left = 65536;
    for (size_t j = 0; j < taps; j++) {
        uint32_t some = j + 1 == taps ? left : below(1 + 2 * left / (uint32_t)taps);
        some = some < left ? some : left;
        left -= some;
        weights[j] = kind == 0 || kind == 1 ? (float)some / 65536.0f : random_float(kind == 2 ? 8 : 0);
        if (kind == 3) weights[j] = 1.0f / (float)taps;
        if (kind == 4 || chance(40)) weights[j] = PICK_FLOAT(0.0f, -0.0f, 1.0f, 1e-45f, 1e-38f, 0.5f, 0.99999994f, 0.00390625f);
    }
}

float draw_strength(void)
{
    return chance(5) ? PICK_FLOAT(0.0f, -0.0f, -1.0f, 1e-45f, -1e-45f, 3.4028235e38f, -3.4028235e38f) : 1.0f;
}

float draw_offset(uint32_t side)
{
    float near = (float)((int32_t)below(2 * (side & 65535) + 3) - (int32_t)(side & 65535) - 1);
    if (chance(8))
        return PICK_FLOAT(0.5f, -0.5f, 0.49999997f, -0.49999997f, -0.0f, 1e-45f, 2.5f, -2.5f, 65536.0f, -65536.0f, 65537.0f,
                          2147483648.0f, -2147483648.0f, 4294967296.0f, 3.4028235e38f, -3.4028235e38f);
    return chance(3) ? near + random_float(0) - 0.5f : chance(3) ? near + 0.5f : near;
}

uint32_t draw_edge(void) { return below(4); }

uint32_t draw_depth(void) { return chance(4) ? below(15) : below(4); }

static float wrong_float(void) { return PICK_FLOAT(NAN, -NAN, INFINITY, -INFINITY, -1e-45f, 1.0000001f, -1.0f, 2.0f); }

static float not_finite(void) { return PICK_FLOAT(NAN, -NAN, INFINITY, -INFINITY); }

static void spoil_sides(Case *c)
{
    uint32_t side = PICK(0, 0, 16385, 16385, 65535, 65536, 65537, 1u << 30, 1u << 31, UINT32_MAX, UINT32_MAX);
    if (chance(2)) c->w = side;
    else c->h = side;
    if (chance(4)) c->w = c->h = side;
}

/* Another length, of which as many bytes are there. */
static void spoil_count(Case *c, int buffer, uint32_t element)
{
    size_t least = 4 * (size_t)(c->w & 65535) * (c->h & 65535), other = PICK(0, 1, 3, 4, 64);
    size_t old = c->count[buffer];
    if (buffer != MAIN && old > least && least > 0 && element == 1) old = least;
    if (chance(2)) other = old > 0 ? old - 1 - (chance(2) ? 0 : below((uint32_t)old)) : 1;
    else if (chance(2)) other = old + 1 + below(8);
    c->count[buffer] = other * element <= ROOM ? other : 0;
    random_bytes(before[buffer].bytes + (old < c->count[buffer] ? old : c->count[buffer]) * element,
                 old < c->count[buffer] ? (c->count[buffer] - old) * element : 0);
}

static void spoil_one(Case *c, uint32_t what)
{
    switch (what) {
    case SIDES: spoil_sides(c); break;
    case LENGTH: spoil_count(c, MAIN, 1); break;
    case SECOND_SHORT: spoil_count(c, SECOND, 1); break;
    case THIRD_SHORT: spoil_count(c, THIRD, 1); break;
    case LIST_SHORT: c->count[LIST] = c->count[LIST] ? below((uint32_t)c->count[LIST]) : 0; break;
    case TAPS:
        c->count[KERNEL] = PICK(0, 34, 35, 66, 256);
        memset(before[KERNEL].bytes, 0, 4 * c->count[KERNEL]);
        break;
    case WEIGHT: before[KERNEL].floats[below(1 + (uint32_t)c->count[KERNEL])] = wrong_float(); break;
    case NUMERATOR:
        before[KERNEL].words[below(1 + (uint32_t)c->count[KERNEL])] += PICK(1, 1, 65536, 1u << 31, UINT32_MAX);
        break;
    case DEPTH: c->n = PICK(4, 15, 16, 31, 32, 64, 1u << 31, UINT32_MAX); break;
    case STRENGTH: c->strength = not_finite(); break;
    case OFFSET: *(chance(2) ? &c->dx : &c->dy) = not_finite(); break;
    case COLOUR: c->colour[below(4)] = wrong_float(); break;
    case EDGE: c->edge = PICK(4, 5, 255, 256, 1u << 31, UINT32_MAX); break;
    case PLACE:
        *(chance(2) ? &c->place : &c->in_place) = (uint64_t)c->w * c->h + PICK(0, 0, 1, 1u << 31) * (chance(3) ? 1ull << 32 : 1);
        break;
    }
}

void spoil(Case *c, uint32_t what)
{
    if (!chance(3)) return;
    for (uint32_t times = 1 + below(2); times > 0; times--) {
        uint32_t one = 0;
        while (!(one & what)) one = 1u << below(WAYS);
        spoil_one(c, one);
    }
}
