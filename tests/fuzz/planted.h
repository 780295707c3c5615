/*
 * Planted faults, one of them compiled in by -DPLANT_..: a wrapper that stands in the place of a library function and does one
 * thing wrong. tests/fuzz-planted runs the driver on each, and each must be found.
 */
#ifndef FUZZ_PLANTED_H
#define FUZZ_PLANTED_H

#include <string.h>

#include "corbelrush.h"

#define BLUR_TAKES \
    uint8_t *picture, size_t picture_len, uint32_t w, uint32_t h, uint8_t *scratch, size_t scratch_len, const float *weights, \
        size_t weights_len, uint32_t n, float strength, uint32_t edge
#define BLUR corbelrush_blur(picture, picture_len, w, h, scratch, scratch_len, weights, weights_len, n, strength, edge)

#if defined PLANT_READ_PAST
/* A byte past the picture is read. */
static uint32_t planted(BLUR_TAKES)
{
    uint32_t number = BLUR;
    if (number == 0) (void)*(volatile uint8_t *)(picture + picture_len);
    return number;
}
#define corbelrush_blur planted

#elif defined PLANT_READ_BEFORE
/* A byte before the picture is read. */
static uint32_t planted(const uint8_t *picture, size_t picture_len, uint32_t w, uint32_t h, uint32_t *found, uint64_t *place)
{
    if (picture_len > 0) (void)*(const volatile uint8_t *)(picture - 1);
    return corbelrush_check(picture, picture_len, w, h, found, place);
}
#define corbelrush_check planted

#elif defined PLANT_WRITE_CONST
/* A table that is only read is written, with what it held. */
static uint32_t planted(const uint32_t *table, size_t entries, uint32_t w, uint32_t h, uint32_t x, uint32_t y, uint32_t wide,
                        uint32_t high, uint64_t *sum)
{
    if (entries > 0) *(volatile uint32_t *)table = *table;
    return corbelrush_area_box(table, entries, w, h, x, y, wide, high, sum);
}
#define corbelrush_area_box planted

#elif defined PLANT_CHANGE_ON_REFUSAL
/* A blur that is refused has cleared a byte of its scratch. */
static uint32_t planted(BLUR_TAKES)
{
    uint32_t number = BLUR;
    if (number == CORBELRUSH_WRONG_EDGE) scratch[0] = 0;
    return number;
}
#define corbelrush_blur planted

#elif defined PLANT_WRONG_BIT
/* One bit of a picture is wrong, at one depth under one edge rule. */
static uint32_t planted(BLUR_TAKES)
{
    uint32_t number = BLUR;
    if (number == 0 && n == 3 && edge == CORBELRUSH_MIRROR && picture_len > 64) picture[64] ^= 1;
    return number;
}
#define corbelrush_blur planted

#elif defined PLANT_DEEP_STACK
/* A call goes deeper than the header allows. */
static uint32_t planted(const uint8_t *picture, size_t picture_len, uint32_t w, uint32_t h, uint32_t edge)
{
    volatile uint8_t deep[257 * 1024];
    deep[0] = (uint8_t)edge;
    return corbelrush_view(picture, picture_len, w, h, edge) + 0 * deep[0];
}
#define corbelrush_view planted

#elif defined PLANT_WRITE_PAST
/* The entry past the list's room is written. */
static uint32_t planted(uint8_t *picture, size_t picture_len, uint32_t w, uint32_t h, corbelrush_change *list, size_t room,
                        uint64_t *count)
{
    uint32_t number = corbelrush_mend(picture, picture_len, w, h, list, room, count);
    if (number == 0 && room > 0) list[room].place = 0;
    return number;
}
#define corbelrush_mend planted

#elif defined PLANT_READ_NULL
/* A list of no entries is read. */
static uint32_t planted(uint8_t *picture, size_t picture_len, uint32_t w, uint32_t h, const corbelrush_change *list, size_t count)
{
    if (count == 0) (void)*(const volatile uint32_t *)&list->place;
    return corbelrush_rebuild(picture, picture_len, w, h, list, count);
}
#define corbelrush_rebuild planted

#elif defined PLANT_ANSWER_LEFT
/* Beside a refusal the spread is left as it was. */
static uint32_t planted(const float *weights, size_t weights_len, uint32_t n, uint64_t *spread)
{
    uint64_t old = *spread;
    uint32_t number = corbelrush_spread(weights, weights_len, n, spread);
    if (number) *spread = old;
    return number;
}
#define corbelrush_spread planted

#elif defined PLANT_WIDE_ANSWER
/* A sheet of 16 bits is written as 32. */
static uint32_t planted(const uint8_t *plate, size_t plate_len, uint32_t index, uint32_t *unit, uint16_t *sheet)
{
    uint32_t number = corbelrush_plate_label(plate, plate_len, index, unit, sheet), wide = *sheet;
    memcpy(sheet, &wide, sizeof wide);
    return number;
}
#define corbelrush_plate_label planted

#elif defined PLANT_WRONG_ORDER
/* Refusal 2 is given before refusal 1. */
static uint32_t planted(uint8_t *picture, size_t picture_len, uint32_t w, uint32_t h, float dx, float dy)
{
    uint32_t number = corbelrush_shift(picture, picture_len, w, h, dx, dy);
    return number == CORBELRUSH_WRONG_SIDES && picture_len != 4 * (uint64_t)w * h ? CORBELRUSH_WRONG_LENGTH : number;
}
#define corbelrush_shift planted

#elif defined PLANT_NOT_CLEARED
/* A byte of the scratch is not cleared after the job. */
static uint32_t planted(uint8_t *plate, size_t plate_len, uint8_t *scratch, size_t scratch_len)
{
    uint8_t old = scratch_len > 3 ? scratch[3] : 0;
    uint32_t number = corbelrush_plate_job(plate, plate_len, scratch, scratch_len);
    if (number == 0 && scratch_len > 3) scratch[3] = old;
    return number;
}
#define corbelrush_plate_job planted
#endif

#endif
