/* Rules 21 and 22: four planes, and lists of recipes. */
#include "rules.h"
#include <math.h>
#include <string.h>

static void planes_of(uint8_t *planes, const uint8_t *picture, size_t area)
{
    for (size_t i = 0; i < 4 * area; i++) planes[i % 4 * area + i / 4] = picture[i];
}

static void picture_of(uint8_t *picture, const uint8_t *planes, size_t area)
{
    for (size_t i = 0; i < 4 * area; i++) picture[i] = planes[i % 4 * area + i / 4];
}

static uint32_t converted(Case *c, void (*convert)(uint8_t *, const uint8_t *, size_t))
{
    uint32_t refused = picture_refused(c);
    if (!refused && works_short(c, 0)) refused = 3;
    if (!refused) convert(after[SECOND].bytes, after[MAIN].bytes, bytes_of(c) / 4);
    return refused;
}

uint32_t rule_to_planes(Case *c) { return converted(c, planes_of); }

uint32_t rule_from_planes(Case *c) { return converted(c, picture_of); }

/* Rule 21.5: the planes of what the rule makes of the picture. */
static uint32_t on_planes(Case *c, Rule *rule)
{
    static uint8_t planes[ROOM];
    uint32_t refused = picture_refused(c);
    if (refused) return refused;
    memcpy(planes, after[MAIN].bytes, bytes_of(c));
    picture_of(after[MAIN].bytes, planes, bytes_of(c) / 4);
    refused = rule(c);
    memcpy(planes, after[MAIN].bytes, bytes_of(c));
    planes_of(after[MAIN].bytes, planes, bytes_of(c) / 4);
    return refused;
}

uint32_t rule_blur_planes(Case *c) { return on_planes(c, rule_blur); }

uint32_t rule_shift_planes(Case *c) { return on_planes(c, rule_shift); }

uint32_t rule_shadow_planes(Case *c) { return on_planes(c, rule_shadow); }

/* Rule 22.6: a recipe's own checks. */
static uint32_t recipe_refused(const corbelrush_recipe *r, size_t kernels)
{
    const float colour[4] = {r->red, r->green, r->blue, r->alpha};
    if (r->operation > 2 || (r->operation != 1 && r->kernel >= kernels)) return 19;
    int moved = isfinite(r->dx) && isfinite(r->dy);
    if (r->operation == 1) return moved ? 0 : 7;
    uint32_t refused = kernel_refused(after[KERNEL].floats + 33 * (size_t)r->kernel, r->taps, r->n);
    if (refused) return refused;
    if (!isfinite(r->strength) || (r->operation == 2 && !moved)) return 7;
    for (int i = 0; i < 4; i++)
        if (r->operation == 2 && outside_unit(colour[i])) return 8;
    return r->edge > 3 ? 9 : 0;
}

static void recipe_run(const corbelrush_recipe *r, const Case *c)
{
    uint8_t *picture = after[MAIN].bytes;
    const Kernel kernel = {.weights = after[KERNEL].floats + 33 * (size_t)r->kernel, .taps = r->taps, .edge = r->edge};
    const Case single = {.w = c->w, .h = c->h, .n = r->n, .composite = r->composite, .dx = r->dx, .dy = r->dy,
                         .strength = r->strength, .colour = {r->red, r->green, r->blue, r->alpha}};
    if (r->operation == 0 && r->strength > 0) blur_picture(picture, c->w, c->h, &kernel, r->n);
    if (r->operation == 1) shift_picture(picture, c->w, c->h, r->dx, r->dy);
    if (r->operation == 2) shadow_picture(picture, &single, &kernel);
}

uint32_t rule_recipes(Case *c)
{
    uint32_t refused = picture_refused(c);
    if (!refused && works_short(c, 1)) refused = 3;
    if (refused) return refused;
    for (size_t i = 0; i < c->count[LIST]; i++) {
        refused = recipe_refused(&after[LIST].recipes[i], c->count[KERNEL] / 33);
        if (refused) return c->out[0] = i, refused;
    }
    for (size_t i = 0; i < c->count[LIST]; i++) recipe_run(&after[LIST].recipes[i], c);
    works_cleared(c, 1);
    return 0;
}
