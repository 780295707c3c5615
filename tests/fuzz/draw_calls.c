/* Inputs of each function that takes a picture, a kernel or a table. */
#include <math.h>

#include "draw.h"
#include "random.h"

static size_t area_of(const Case *c) { return (size_t)c->w * c->h; }

static void draw_float_kernel(Case *c)
{
    c->count[KERNEL] = draw_taps();
    draw_weights(before[KERNEL].floats, c->count[KERNEL]);
}

void draw_blur(Case *c)
{
    draw_picture(c);
    draw_room(c, SECOND, 4 * area_of(c), 1);
    draw_float_kernel(c);
    c->n = draw_depth();
    c->edge = draw_edge();
    c->strength = draw_strength();
    spoil(c, SIDES | LENGTH | SECOND_SHORT | TAPS | WEIGHT | DEPTH | STRENGTH | EDGE);
}

void draw_blur_whole(Case *c)
{
    draw_picture(c);
    draw_room(c, SECOND, 4 * area_of(c), 1);
    draw_numerators(c);
    c->n = draw_depth();
    c->edge = draw_edge();
    spoil(c, SIDES | LENGTH | SECOND_SHORT | TAPS | NUMERATOR | DEPTH | EDGE);
}

void draw_shift(Case *c)
{
    draw_picture(c);
    c->dx = draw_offset(c->w);
    c->dy = draw_offset(c->h);
    spoil(c, SIDES | LENGTH | OFFSET);
}

void draw_shadow(Case *c)
{
    draw_picture(c);
    draw_room(c, SECOND, 4 * area_of(c), 1);
    draw_room(c, THIRD, 4 * area_of(c), 1);
    draw_float_kernel(c);
    c->n = draw_depth();
    c->edge = draw_edge();
    c->strength = draw_strength();
    c->dx = draw_offset(c->w);
    c->dy = draw_offset(c->h);
    for (int i = 0; i < 4; i++) c->colour[i] = chance(4) ? PICK_FLOAT(0.0f, -0.0f, 1.0f, 1e-45f, 0.99999994f) : random_float(0);
    c->composite = PICK(0, 0, 1, 1, 2, UINT32_MAX);
    spoil(c, SIDES | LENGTH | SECOND_SHORT | THIRD_SHORT | TAPS | WEIGHT | DEPTH | STRENGTH | OFFSET | COLOUR | EDGE);
}

void draw_check(Case *c)
{
    draw_picture(c);
    spoil(c, SIDES | LENGTH);
}

void draw_mend(Case *c)
{
    draw_picture(c);
    draw_room(c, LIST, chance(3) ? below((uint32_t)area_of(c) + 1) : area_of(c), sizeof(corbelrush_change));
    spoil(c, SIDES | LENGTH | LIST_SHORT);
}

void draw_rebuild(Case *c)
{
    uint32_t place = 0, step;
    draw_picture(c);
    step = 1 + below((uint32_t)area_of(c));
    random_bytes(before[LIST].bytes, 8 * area_of(c));
    for (place = below(step); place < area_of(c); place += 1 + below(step)) before[LIST].changes[c->count[LIST]++].place = place;
    if (chance(6)) before[LIST].changes[below(1 + (uint32_t)c->count[LIST])].place = PICK(0, 1, UINT32_MAX, (uint32_t)area_of(c));
    spoil(c, SIDES | LENGTH | LIST_SHORT);
}

void draw_share(Case *c)
{
    draw_sides(c, 40);
    draw_numerators(c);
    c->n = below(4);
    c->edge = draw_edge();
    c->place = below((uint32_t)area_of(c));
    c->in_place = chance(3) ? below((uint32_t)area_of(c)) : (c->place + below(3)) % area_of(c);
    spoil(c, SIDES | TAPS | NUMERATOR | DEPTH | EDGE | PLACE);
}

void draw_shares(Case *c)
{
    draw_sides(c, 12);
    if (area_of(c) > 2000 || !chance(50)) c->w = 1 + (c->w - 1) % 50, c->h = 1 + (c->h - 1) % 40;
    draw_numerators(c);
    c->n = below(4);
    c->edge = draw_edge();
    c->place = below((uint32_t)area_of(c));
    draw_room(c, LIST, chance(3) ? below((uint32_t)area_of(c) + 1) : area_of(c), sizeof(corbelrush_point));
    spoil(c, SIDES | TAPS | NUMERATOR | DEPTH | EDGE | PLACE | LIST_SHORT);
}

static uint32_t draw_coordinate(uint32_t side)
{
    if (chance(4)) return PICK(0, 1u << 31, UINT32_MAX, INT32_MAX, (1u << 31) + 1, INT32_MAX - 1);
    return (uint32_t)((int32_t)below(6 * side) - 3 * (int32_t)side);
}

void draw_view(Case *c)
{
    draw_picture(c);
    c->edge = draw_edge();
    c->x = draw_coordinate(c->w);
    c->y = draw_coordinate(c->h);
    spoil(c, SIDES | LENGTH | EDGE);
}

void draw_spread(Case *c)
{
    draw_float_kernel(c);
    if (chance(2)) {
        draw_numerators(c);
        for (size_t j = 0; j < c->count[KERNEL]; j++) before[KERNEL].floats[j] = (float)before[KERNEL].words[j] / 65536.0f;
    }
    c->n = draw_depth();
    spoil(c, TAPS | WEIGHT | DEPTH);
}

void draw_area_build(Case *c)
{
    draw_picture(c);
    draw_room(c, LIST, area_of(c), 4);
    spoil(c, SIDES | LENGTH | LIST_SHORT);
}

void draw_area_box(Case *c)
{
    draw_sides(c, 36);
    draw_room(c, LIST, area_of(c), 4);
    c->x = below(c->w);
    c->y = below(c->h);
    c->wide = 1 + below(c->w - c->x);
    c->high = 1 + below(c->h - c->y);
    if (chance(8)) *(chance(2) ? &c->wide : &c->high) = PICK(0, c->w - c->x + 1, c->h - c->y + 1, 1u << 31, UINT32_MAX);
    if (chance(12)) *(chance(2) ? &c->x : &c->y) = PICK(c->w, c->h, UINT32_MAX, UINT32_MAX - c->wide + 1);
    spoil(c, SIDES | LIST_SHORT);
}

void draw_area_update(Case *c)
{
    draw_sides(c, 36);
    draw_room(c, LIST, area_of(c), 4);
    c->place = below((uint32_t)area_of(c));
    random_bytes(&c->old_alpha, 1);
    random_bytes(&c->new_alpha, 1);
    spoil(c, SIDES | LIST_SHORT | PLACE);
}

void draw_convert(Case *c)
{
    draw_picture(c);
    draw_room(c, SECOND, 4 * area_of(c), 1);
    spoil(c, SIDES | LENGTH | SECOND_SHORT);
}

static void spoil_recipe(corbelrush_recipe *r, uint32_t kernels)
{
    float odd = PICK_FLOAT(2.0f, -1.0f, NAN, INFINITY);
    switch (below(8)) {
    case 0: r->operation = PICK(3, 4, UINT32_MAX); break;
    case 1: r->kernel = PICK(kernels, kernels + 1, UINT32_MAX); break;
    case 2: r->taps = PICK(0, 34, UINT32_MAX); break;
    case 3: r->n = PICK(15, UINT32_MAX); break;
    case 4: r->edge = PICK(4, UINT32_MAX); break;
    case 5: *(chance(2) ? &r->dx : &r->strength) = odd; break;
    case 6: *(chance(2) ? &r->red : &r->alpha) = odd; break;
    default: *(chance(2) ? &r->dy : &r->green) = odd;
    }
}

static void draw_recipe(const Case *c, corbelrush_recipe *r)
{
    uint32_t kernels = (uint32_t)c->count[KERNEL] / 33;
    *r = (corbelrush_recipe){.operation = kernels ? below(3) : 1, .kernel = below(kernels + !kernels), .taps = (uint32_t)draw_taps(),
                             .n = below(4), .edge = draw_edge(), .composite = below(2), .dx = draw_offset(c->w),
                             .dy = draw_offset(c->h), .strength = draw_strength(), .red = random_float(0),
                             .green = random_float(0), .blue = random_float(0), .alpha = random_float(0)};
    if (chance(20)) spoil_recipe(r, kernels);
}

void draw_recipes(Case *c)
{
    draw_picture(c);
    draw_room(c, SECOND, 4 * area_of(c), 1);
    draw_room(c, THIRD, 4 * area_of(c), 1);
    c->count[KERNEL] = 33 * below(4) + (chance(2) ? 0 : below(33));
    draw_weights(before[KERNEL].floats, c->count[KERNEL]);
    if (chance(10)) before[KERNEL].floats[below(1 + (uint32_t)c->count[KERNEL])] = 2.0f;
    c->count[LIST] = below(5);
    for (size_t i = 0; i < c->count[LIST]; i++) draw_recipe(c, &before[LIST].recipes[i]);
    spoil(c, SIDES | LENGTH | SECOND_SHORT | THIRD_SHORT);
}
