/*
 * The rules of docs/RULES.md, written plainly, one function for each of the library's. A rule reads the case and `after`,
 * which holds what is lent; it answers the number, and leaves in `after` and c->out what the call must leave.
 */
#ifndef FUZZ_RULES_H
#define FUZZ_RULES_H

#include "case.h"

/* Rule 4: the element of a line of s that c reads, -1 where there is none. */
int64_t extended(int64_t c, uint32_t s, uint32_t edge);

/* The kernel of a blur, in weights or, where those are null, in numerators. */
typedef struct {
    const float *weights;
    const uint32_t *numerators;
    size_t taps;
    uint32_t edge;
} Kernel;

uint64_t bytes_of(const Case *c);                                     /* 4wh */
uint32_t sides_refused(const Case *c);                                /* check 1 */
uint32_t picture_refused(const Case *c);                              /* 1, 2 */
int works_short(const Case *c, int both);                             /* 3 */
uint32_t kernel_refused(const float *weights, size_t taps, uint32_t n); /* 4, 5, 6 */
int outside_unit(float value);                                        /* 5, 8 */
int exceeds(const uint8_t *pixel);                                    /* 9.1 */
uint32_t packed(const uint8_t *pixel);
uint8_t rounded(double value); /* 6.3 */

void blur_picture(uint8_t *picture, uint32_t w, uint32_t h, const Kernel *kernel, uint32_t n);
void shift_picture(uint8_t *picture, uint32_t w, uint32_t h, float dx, float dy);
void shadow_picture(uint8_t *picture, const Case *c, const Kernel *kernel);
void works_cleared(const Case *c, int both);

typedef uint32_t Rule(Case *c);
Rule rule_blur, rule_blur_whole, rule_shift, rule_shadow, rule_check, rule_mend, rule_rebuild, rule_share, rule_shares, rule_view,
    rule_sample, rule_spread, rule_area_build, rule_area_box, rule_area_update, rule_plate_picture, rule_plate_label,
    rule_plate_job, rule_plate_start, rule_plate_add, rule_pam_read, rule_pam_write, rule_to_planes, rule_from_planes,
    rule_blur_planes, rule_shift_planes, rule_shadow_planes, rule_recipes;

#endif
