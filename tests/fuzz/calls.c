/* The calls of the library, and the table of all functions. */
#include "draw.h"
#include "planted.h"
#include "rules.h"

#define CALL(name) static uint32_t call_##name(const Case *c, void *const at[BUFFERS], void *const out[OUTS])
#define PICTURE at[MAIN], c->count[MAIN], c->w, c->h
#define LENT(buffer) at[buffer], c->count[buffer]
#define COLOURED c->dx, c->dy, c->strength, c->colour[0], c->colour[1], c->colour[2], c->colour[3], c->composite
#define UNUSED (void)out

CALL(blur) { return UNUSED, corbelrush_blur(PICTURE, LENT(SECOND), LENT(KERNEL), c->n, c->strength, c->edge); }
CALL(blur_whole) { return UNUSED, corbelrush_blur_whole(PICTURE, LENT(SECOND), LENT(KERNEL), c->n, c->edge); }
CALL(shift) { return UNUSED, corbelrush_shift(PICTURE, c->dx, c->dy); }
CALL(shadow) { return UNUSED, corbelrush_shadow(PICTURE, LENT(SECOND), LENT(THIRD), LENT(KERNEL), c->n, c->edge, COLOURED); }
CALL(check) { return corbelrush_check(PICTURE, out[0], out[1]); }
CALL(mend) { return corbelrush_mend(PICTURE, LENT(LIST), out[0]); }
CALL(rebuild) { return UNUSED, corbelrush_rebuild(PICTURE, LENT(LIST)); }
CALL(share) { return corbelrush_share(c->w, c->h, LENT(KERNEL), c->n, c->edge, c->place, c->in_place, out[0]); }
CALL(shares) { return corbelrush_shares(c->w, c->h, LENT(KERNEL), c->n, c->edge, c->place, LENT(LIST), out[0]); }
CALL(view) { return UNUSED, corbelrush_view(PICTURE, c->edge); }
CALL(sample) { return UNUSED, corbelrush_sample(PICTURE, c->edge, (int32_t)c->x, (int32_t)c->y); }
CALL(spread) { return corbelrush_spread(LENT(KERNEL), c->n, out[0]); }
CALL(area_build) { return UNUSED, corbelrush_area_build(PICTURE, LENT(LIST)); }
CALL(area_box) { return corbelrush_area_box(LENT(LIST), c->w, c->h, c->x, c->y, c->wide, c->high, out[0]); }
CALL(area_update) { return UNUSED, corbelrush_area_update(LENT(LIST), c->w, c->h, c->place, c->old_alpha, c->new_alpha); }
CALL(plate_picture) { return corbelrush_plate_picture(LENT(MAIN), c->index, out[0], out[1], out[2], out[3]); }
CALL(plate_label) { return corbelrush_plate_label(LENT(MAIN), c->index, out[0], out[1]); }
CALL(plate_job) { return UNUSED, corbelrush_plate_job(LENT(MAIN), LENT(SECOND)); }
CALL(plate_start) { return corbelrush_plate_start(LENT(MAIN), c->version, out[0]); }
CALL(plate_add) { return corbelrush_plate_add(LENT(MAIN), c->used, LENT(SECOND), c->w, c->h, c->unit, c->sheet, out[0]); }
CALL(pam_read) { return corbelrush_pam_read(LENT(MAIN), LENT(SECOND), out[0], out[1], out[2]); }
CALL(pam_write) { return corbelrush_pam_write(PICTURE, LENT(SECOND), out[0], out[1]); }
CALL(to_planes) { return UNUSED, corbelrush_to_planes(PICTURE, LENT(SECOND)); }
CALL(from_planes) { return UNUSED, corbelrush_from_planes(PICTURE, LENT(SECOND)); }
CALL(blur_planes) { return UNUSED, corbelrush_blur_planes(PICTURE, LENT(SECOND), LENT(KERNEL), c->n, c->strength, c->edge); }
CALL(shift_planes) { return UNUSED, corbelrush_shift_planes(PICTURE, c->dx, c->dy); }
CALL(shadow_planes)
{
    return UNUSED, corbelrush_shadow_planes(PICTURE, LENT(SECOND), LENT(THIRD), LENT(KERNEL), c->n, c->edge, COLOURED);
}
CALL(recipes) { return corbelrush_recipes(PICTURE, LENT(SECOND), LENT(THIRD), LENT(LIST), LENT(KERNEL), out[0]); }

/* Elements by buffer, which of them are written, the answered numbers' bytes, and bits of the numbers that are returned. */
#define ROW(name, draw, ...) {#name, draw, rule_##name, call_##name, __VA_ARGS__}
#define BIT(number) (1u << (number))
enum {
    TO_2 = BIT(0) | BIT(1) | BIT(2),
    TO_3 = TO_2 | BIT(3),
    BLURS = TO_3 | BIT(4) | BIT(5) | BIT(6) | BIT(7) | BIT(9),
    SHARES = BIT(0) | BIT(1) | BIT(4) | BIT(9) | BIT(14) | BIT(21) | BIT(22)
};

const Function functions[] = {
    ROW(blur, draw_blur, {1, 1, 0, 4}, {1, 1}, {0}, BLURS),
    ROW(blur_whole, draw_blur_whole, {1, 1, 0, 4}, {1, 1}, {0}, TO_3 | BIT(4) | BIT(6) | BIT(9) | BIT(14)),
    ROW(shift, draw_shift, {1}, {1}, {0}, TO_2 | BIT(7)),
    ROW(shadow, draw_shadow, {1, 1, 1, 4}, {1, 1, 1}, {0}, BLURS | BIT(8)),
    ROW(check, draw_check, {1}, {0}, {4, 8}, TO_2),
    ROW(mend, draw_mend, {1, 0, 0, 0, 8}, {1, 0, 0, 0, 1}, {8}, TO_2 | BIT(17)),
    ROW(rebuild, draw_rebuild, {1, 0, 0, 0, 8}, {1}, {0}, TO_2 | BIT(18)),
    ROW(share, draw_share, {0, 0, 0, 4}, {0}, {8}, SHARES),
    ROW(shares, draw_shares, {0, 0, 0, 4, 16}, {0, 0, 0, 0, 1}, {8}, SHARES | BIT(17)),
    ROW(view, draw_view, {1}, {0}, {0}, TO_2 | BIT(9)),
    ROW(sample, draw_view, {1}, {0}, {0}, BIT(0)),
    ROW(spread, draw_spread, {0, 0, 0, 4}, {0}, {8}, BIT(0) | BIT(4) | BIT(6) | BIT(11)),
    ROW(area_build, draw_area_build, {1, 0, 0, 0, 4}, {0, 0, 0, 0, 1}, {0}, TO_3),
    ROW(area_box, draw_area_box, {0, 0, 0, 0, 4}, {0}, {8}, BIT(0) | BIT(1) | BIT(3) | BIT(20)),
    ROW(area_update, draw_area_update, {0, 0, 0, 0, 4}, {0, 0, 0, 0, 1}, {0}, BIT(0) | BIT(1) | BIT(3) | BIT(20)),
    ROW(plate_picture, draw_plate, {1}, {0}, {4, 4, 8, 8}, BIT(0) | BIT(10) | BIT(12)),
    ROW(plate_label, draw_plate, {1}, {0}, {4, 2}, BIT(0) | BIT(10) | BIT(12)),
    ROW(plate_job, draw_plate, {1, 1}, {1, 1}, {0}, BIT(0) | BIT(3) | BIT(10)),
    ROW(plate_start, draw_plate_start, {1}, {1}, {8}, BIT(0) | BIT(10) | BIT(13)),
    ROW(plate_add, draw_plate_add, {1, 1}, {1}, {8}, TO_2 | BIT(10) | BIT(13)),
    ROW(pam_read, draw_pam_read, {1, 1}, {0, 1}, {4, 4, 8}, BIT(0) | BIT(3) | BIT(15)),
    ROW(pam_write, draw_pam_write, {1, 1}, {0, 1}, {8, 8}, TO_3 | BIT(16)),
    ROW(to_planes, draw_convert, {1, 1}, {0, 1}, {0}, TO_3),
    ROW(from_planes, draw_convert, {1, 1}, {0, 1}, {0}, TO_3),
    ROW(blur_planes, draw_blur, {1, 1, 0, 4}, {1, 1}, {0}, BLURS),
    ROW(shift_planes, draw_shift, {1}, {1}, {0}, TO_2 | BIT(7)),
    ROW(shadow_planes, draw_shadow, {1, 1, 1, 4}, {1, 1, 1}, {0}, BLURS | BIT(8)),
    ROW(recipes, draw_recipes, {1, 1, 1, 4, 52}, {1, 1, 1}, {8}, BLURS | BIT(8) | BIT(19)),
};

const unsigned function_count = sizeof functions / sizeof *functions;
