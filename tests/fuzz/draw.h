/* Draws the inputs of a case: mostly calls that are done, near the limits, and one in three with something wrong. */
#ifndef FUZZ_DRAW_H
#define FUZZ_DRAW_H

#include "case.h"

typedef void Draw(Case *c);
Draw draw_blur, draw_blur_whole, draw_shift, draw_shadow, draw_check, draw_mend, draw_rebuild, draw_share, draw_shares, draw_view,
    draw_spread, draw_area_build, draw_area_box, draw_area_update, draw_plate, draw_plate_start, draw_plate_add, draw_pam_read,
    draw_pam_write, draw_convert, draw_recipes;

void draw_sides(Case *c, uint32_t small); /* mostly up to a third of this, seldom far more */
void draw_picture(Case *c);               /* sides, and MAIN */

/* A buffer with room for so many elements of so many bytes, or a few more. */
void draw_room(Case *c, int buffer, size_t least, uint32_t element);

size_t draw_taps(void);
void draw_numerators(Case *c);
void draw_weights(float *weights, size_t taps);
float draw_strength(void);
float draw_offset(uint32_t side);
uint32_t draw_edge(void);
uint32_t draw_depth(void);

/* What can be wrong with a call. */
enum {
    SIDES = 1,
    LENGTH = 2,
    SECOND_SHORT = 4,
    THIRD_SHORT = 8,
    LIST_SHORT = 16,
    TAPS = 32,
    WEIGHT = 64,
    NUMERATOR = 128,
    DEPTH = 256,
    STRENGTH = 512,
    OFFSET = 1024,
    COLOUR = 2048,
    EDGE = 4096,
    PLACE = 8192,
    WAYS = 14
};

void spoil(Case *c, uint32_t what); /* in one case of three, one or two of these */

#endif
