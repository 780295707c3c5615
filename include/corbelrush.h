/*
 * Corbelrush: blur with decimation, pixel shift, drop shadow, what graders ask of a picture, and plates, for C and C++.
 *
 * A picture is w by h pixels, each side 1 to 16384: bytes r, g, b, a for each pixel, premultiplied, row by row from the
 * top, exactly 4wh of them. Any byte values are taken.
 *
 * A plate is a file of 0 to 64 pictures, its numbers little-endian: 2 bytes version, 1, 2 or 3, and 2 bytes count; an
 * entry for each picture; and the pictures in that order, with no gap and nothing after them. An entry of version 1 has
 * 12 bytes: 2 width, 2 height, 4 offset, counted from the file's start, and 4 length, which is 4wh. One of version 2 or 3
 * has 16: the same, then 2 unit, which is 1 or 2, and 2 sheet number, which is any. So the first picture stands at
 * 4 + 12 * count in version 1, and at 4 + 16 * count in versions 2 and 3. A plate of version 1 or 2 has sides of 1 to 4096
 * and at most 16384 bytes in all; one of version 3, for larger scans, sides of 1 to 16384 and at most 16777216 bytes.
 *
 * Every function but corbelrush_sample returns 0 when it is done, else the number of the first check that refuses: its
 * checks run in the order in which its refusals are listed below. A call that is refused changes no byte of any buffer,
 * and sets what it answers through pointers to 0 unless its text says otherwise. Any values of the other arguments are
 * taken; no function fails in another way.
 *
 * What C cannot check, and the caller sees to:
 *   - A buffer has as many bytes (weights: floats, numerators: numbers of 32 bits, each aligned) as the length beside it
 *     says. One of length 0 is not touched, and its pointer may be null. A list or a table is aligned, and has as many
 *     entries as the number beside it says.
 *   - No two buffers or numbers of one call overlap, unless the function only reads both.
 *   - The pointers through which numbers are answered are not null.
 *   - The floating-point environment is the one that a program starts with: rounding to nearest, no flushing to zero. A
 *     program that is linked with -Ofast or -ffast-math starts with denormals flushed to zero, and then answers differ.
 *
 * Room that is always enough: w * h entries for a list; 4wh + CORBELRUSH_PAM_HEADER bytes for an image file that is
 * written, and as many bytes as the file has for the picture of one that is read; as many bytes as the plate has for the
 * scratch of its job.
 *
 * The functions keep nothing between calls, allocate nothing and read nothing but their arguments, so threads may call
 * them at the same time on different buffers. A call uses less than 256 KiB of stack, whatever it is handed.
 *
 * A library that was made for any x86-64 processor (tools/native-lib OUTDIR any) also asks the processor what it is, once,
 * when a program is loaded. Which machine code a call runs depends on that, and no answer does.
 */
#ifndef CORBELRUSH_H
#define CORBELRUSH_H

#include <stddef.h>
#include <stdint.h>

/* The version of this header and of the library that belongs to it. */
#define CORBELRUSH_VERSION_MAJOR 1
#define CORBELRUSH_VERSION_MINOR 0
#define CORBELRUSH_VERSION_PATCH 0

/* Limits, and the numbers that values are counted in. */
#define CORBELRUSH_MAX_SIDE 16384              /* of a picture, in pixels */
#define CORBELRUSH_MAX_TAPS 33                 /* weights or numerators of a kernel */
#define CORBELRUSH_MAX_DECIMATIONS 14          /* n of a blur, a shadow and a spread */
#define CORBELRUSH_MAX_SHARE_DECIMATIONS 3     /* n of shares */
#define CORBELRUSH_GRID 65536                  /* numerators count in 1/65536, and sum to at most this */
#define CORBELRUSH_SPREAD_UNIT 131072          /* a spread counts in 1/131072 of a square pixel */
#define CORBELRUSH_MAX_BOX 16843009            /* pixels of a box of area sums */
#define CORBELRUSH_PAM_HEADER 73               /* bytes of the longest header of an image file */
#define CORBELRUSH_MAX_PLATE_VERSION 3
#define CORBELRUSH_MAX_PLATE_PICTURES 64
#define CORBELRUSH_MAX_PLATE_BYTES 16777216    /* of a plate of version 3, whose sides go to CORBELRUSH_MAX_SIDE */
#define CORBELRUSH_SMALL_PLATE_BYTES 16384     /* of a plate of version 1 or 2 */
#define CORBELRUSH_SMALL_PLATE_SIDE 4096       /* of a picture in one of those */
#define CORBELRUSH_STACK 262144                /* bytes of stack that are enough for any call */

#ifdef __cplusplus
extern "C" {
#endif

/* What a function returns. */
enum {
    CORBELRUSH_DONE = 0,
    CORBELRUSH_WRONG_SIDES = 1,   /* w or h is 0 or above 16384 */
    CORBELRUSH_WRONG_LENGTH = 2,  /* the picture is not exactly 4wh bytes */
    CORBELRUSH_TOO_SHORT = 3,     /* a work buffer or a table is too short */
    CORBELRUSH_WRONG_TAPS = 4,    /* the number of weights or numerators is 0 or above 33 */
    CORBELRUSH_WRONG_WEIGHT = 5,  /* a weight is NaN, below 0 or above 1 */
    CORBELRUSH_TOO_DEEP = 6,      /* n is above 14 */
    CORBELRUSH_NOT_FINITE = 7,    /* the strength or an offset is NaN or infinite */
    CORBELRUSH_WRONG_COLOUR = 8,  /* a colour component is NaN, below 0 or above 1 */
    CORBELRUSH_WRONG_EDGE = 9,    /* the edge number is none of the four below */
    CORBELRUSH_BROKEN_PLATE = 10, /* the file breaks a rule of plates; no such version or unit; more in use than lent */
    CORBELRUSH_OFF_GRID = 11,     /* a weight is no multiple of 1/65536, or the weights do not sum to 1 */
    CORBELRUSH_NO_PICTURE = 12,   /* the plate has no picture of that index */
    CORBELRUSH_NO_ROOM = 13,      /* the plate would pass 64 pictures, the most bytes of its version or its buffer */
    CORBELRUSH_WRONG_SUM = 14,    /* the numerators sum to more than 65536 */
    CORBELRUSH_NO_PAM = 15,       /* the file is no PAM file as corbelrush_pam_write writes it, or its length does not fit */
    CORBELRUSH_EXCEEDS = 16,      /* a channel exceeds its alpha */
    CORBELRUSH_LIST_FULL = 17,    /* the list has room for fewer entries than there are */
    CORBELRUSH_WRONG_LIST = 18,   /* a place of the list lies outside the picture, or is not above the one before it */
    CORBELRUSH_WRONG_RECIPE = 19, /* a recipe has no operation of that number, or no kernel of that index */
    CORBELRUSH_WRONG_BOX = 20,    /* the box is empty, too large or partly outside the picture, or the place outside */
    CORBELRUSH_TOO_DEEP_TO_SHARE = 21, /* n is above 3, the most that shares are worked out for */
    CORBELRUSH_OUTSIDE = 22       /* a place lies outside the picture */
};

/* What a number that a function returns says, in words. */
static inline const char *corbelrush_says(uint32_t number)
{
    static const char *const words[] = {
        "done",
        "w or h is 0 or above 16384",
        "the picture is not exactly 4wh bytes",
        "a work buffer, a table or the room for the result is too short",
        "the number of weights or numerators is 0 or above 33",
        "a weight is NaN, below 0 or above 1",
        "n is above 14",
        "the strength or an offset is NaN or infinite",
        "a colour component is NaN, below 0 or above 1",
        "the edge number is none of the four",
        "the file breaks a rule of plates, or the version or the unit is none that there is",
        "a weight is no multiple of 1/65536, or the weights do not sum to 1",
        "the plate has no picture of that index",
        "the plate would pass 64 pictures, the most bytes of its version or its buffer",
        "the numerators sum to more than 65536",
        "the file is no PAM file of the accepted spelling, or its length does not fit",
        "a channel exceeds its alpha",
        "the list has room for fewer entries than there are",
        "a place of the list lies outside the picture, or is not above the one before it",
        "the operation of a recipe or its kernel index is none that there is",
        "the box is empty, too large or partly outside the picture, or the place lies outside",
        "n is above 3, the most that shares are worked out for",
        "a place lies outside the picture"
    };
    return number < sizeof words / sizeof *words ? words[number] : "no number that a function returns";
}

/* What a picture is beyond its borders. */
enum {
    CORBELRUSH_DUPLICATE = 0, /* its nearest pixel */
    CORBELRUSH_WRAP = 1,      /* itself again */
    CORBELRUSH_MIRROR = 2,    /* itself, mirrored, the border pixel twice */
    CORBELRUSH_NONE = 3       /* four zeros */
};

/* The unit that a plate of version 2 or 3 names beside each picture. A plate of version 1 names none, which is 0. */
enum {
    CORBELRUSH_MILLIOHM = 1,
    CORBELRUSH_MICROOHM = 2
};

/*
 * Blurs a picture: n halvings, the convolution by the weights in rows and in columns, n doublings. Weight j is that of
 * the pixel j - weights_len / 2 to the right or below; n is 0 to 14. A strength at or below 0 leaves the picture as it is.
 *
 * The strength is a switch: 1 and 100 give the same bytes. The weights need not sum to 1: a sum below 1 darkens, and one
 * above 1 whitens, since a channel is held at 255; corbelrush_spread, which refuses both as 11, is the kernel's check.
 *
 * Refusals: 1, 2, 3 (scratch under 4wh bytes), 4, 5, 6, 7 (strength), 9.
 * Done: picture is blurred, the first 4wh bytes of scratch are 0, the rest of it is as it was.
 */
uint32_t corbelrush_blur(uint8_t *picture, size_t picture_len, uint32_t w, uint32_t h, uint8_t *scratch,
                         size_t scratch_len, const float *weights, size_t weights_len, uint32_t n, float strength,
                         uint32_t edge);

/*
 * Blurs a picture with numerators over 65536 in place of weights, in whole numbers alone: no operation of it, or of what
 * it calls, is in floating point. For every picture, n and edge it leaves the bytes that corbelrush_blur leaves with
 * the weights numerator / 65536 and a strength above 0. Where the numerators sum to 65536 and the edge is not
 * CORBELRUSH_NONE, each channel afterwards lies between the least and the greatest value that it had in the picture.
 *
 * Refusals: 1, 2, 3 (scratch under 4wh bytes), 4, 14, 6, 9.
 * Done: picture is blurred, the first 4wh bytes of scratch are 0, the rest of it is as it was. The numerators are only
 * read.
 */
uint32_t corbelrush_blur_whole(uint8_t *picture, size_t picture_len, uint32_t w, uint32_t h, uint8_t *scratch,
                               size_t scratch_len, const uint32_t *numerators, size_t numerators_len, uint32_t n,
                               uint32_t edge);

/*
 * Moves a picture by dx to the right and dy down, each rounded to the nearest whole number, halves away from zero.
 * What comes in from outside is four zeros.
 *
 * Refusals: 1, 2, 7 (an offset).
 * Done: picture is moved.
 */
uint32_t corbelrush_shift(uint8_t *picture, size_t picture_len, uint32_t w, uint32_t h, float dx, float dy);

/*
 * Draws a picture's drop shadow: its alpha moved by dx and dy as corbelrush_shift does, blurred as corbelrush_blur does
 * where the strength is above 0, in the colour red, green, blue, alpha, each 0 to 1 and not premultiplied. With
 * composite 0 the shadow alone is left, else the picture over its shadow.
 *
 * Refusals: 1, 2, 3 (scratch or copy under 4wh bytes), 4, 5, 6, 7 (strength or an offset), 8, 9.
 * Done: picture is the shadow, or the picture over it; the first 4wh bytes of scratch and of copy are 0, the rest of
 * both is as it was.
 */
uint32_t corbelrush_shadow(uint8_t *picture, size_t picture_len, uint32_t w, uint32_t h, uint8_t *scratch,
                           size_t scratch_len, uint8_t *copy, size_t copy_len, const float *weights,
                           size_t weights_len, uint32_t n, uint32_t edge, float dx, float dy, float strength,
                           float red, float green, float blue, float alpha, uint32_t composite);

/* The operation of a recipe. */
enum {
    CORBELRUSH_RECIPE_BLUR = 0,
    CORBELRUSH_RECIPE_SHIFT = 1,
    CORBELRUSH_RECIPE_SHADOW = 2
};

/*
 * A recipe of a list: an operation and its numbers. A blur reads kernel, taps, n, edge and strength; a shift dx and dy
 * alone; a shadow every field. What its operation does not read may hold anything.
 */
typedef struct {
    uint32_t operation;             /* CORBELRUSH_RECIPE_BLUR, CORBELRUSH_RECIPE_SHIFT or CORBELRUSH_RECIPE_SHADOW */
    uint32_t kernel;                /* the index of its kernel in the table, counted from 0 */
    uint32_t taps;                  /* how many weights it has: the first taps of the kernel's 33 */
    uint32_t n;                     /* its decimations */
    uint32_t edge;                  /* its edge rule, CORBELRUSH_DUPLICATE to CORBELRUSH_NONE */
    uint32_t composite;             /* 0: the shadow alone; else the picture over it */
    float dx, dy;                   /* its offset */
    float strength;                 /* of its blur */
    float red, green, blue, alpha;  /* the shadow's colour */
} corbelrush_recipe;

#if defined(__cplusplus) && __cplusplus >= 201103L
static_assert(sizeof(corbelrush_recipe) == 52, "a recipe has 52 bytes");
#elif defined(__STDC_VERSION__) && __STDC_VERSION__ >= 201112L
_Static_assert(sizeof(corbelrush_recipe) == 52, "a recipe has 52 bytes");
#endif

/*
 * Runs a list of recipes in order on one picture: each does what corbelrush_blur, corbelrush_shift or corbelrush_shadow
 * does to the picture that the one before it left. Kernel k is the 33 weights from table + 33k on, and a recipe of t taps
 * has the first t of them; weights at the end of the table that are fewer than 33 are no kernel. All recipes are checked
 * before the first runs. A list of no recipes is done, and leaves the picture. The list is aligned to 4.
 *
 * Refusals: 1, 2, 3 (scratch or copy under 4wh bytes, whatever the recipes are); then those of the first recipe that has
 * one, in the order 19 (the operation is above 2; or, but for a shift, the table has no such kernel), 4 (taps), 5 (one of
 * those taps), 6, 7 (a blur's strength; a shift's dx or dy; any of the three of a shadow), 8, 9, each where its operation
 * has it: *index is that recipe's, counted from 0. Beside 1, 2 and 3, and when done, *index is 0.
 * Done: picture is what the recipes made of it; the first 4wh bytes of scratch and of copy are 0, the rest of both is as
 * it was. The recipes and the table are only read.
 */
uint32_t corbelrush_recipes(uint8_t *picture, size_t picture_len, uint32_t w, uint32_t h, uint8_t *scratch,
                            size_t scratch_len, uint8_t *copy, size_t copy_len, const corbelrush_recipe *recipes,
                            size_t count, const float *table, size_t weights, uint64_t *index);

/*
 * A picture as four planes: all r, then all g, b and a, each w * h bytes, row by row from the top, 4wh bytes in all.
 * corbelrush_to_planes writes the planes of the picture src into dst, corbelrush_from_planes the picture of the planes
 * src. Each undoes the other.
 *
 * Refusals: 1, 2 (src is not exactly 4wh bytes), 3 (dst under 4wh bytes).
 * Done: the first 4wh bytes of dst are the other form, the rest of it is as it was. src is only read.
 */
uint32_t corbelrush_to_planes(const uint8_t *src, size_t src_len, uint32_t w, uint32_t h, uint8_t *dst, size_t dst_len);

uint32_t corbelrush_from_planes(const uint8_t *src, size_t src_len, uint32_t w, uint32_t h, uint8_t *dst,
                                size_t dst_len);

/*
 * Blur, shift and shadow of a picture that lies as four planes: the same numbers and, converted back, the same bytes as
 * corbelrush_blur, corbelrush_shift and corbelrush_shadow leave, and the same of the work buffers, which are as long.
 */
uint32_t corbelrush_blur_planes(uint8_t *planes, size_t planes_len, uint32_t w, uint32_t h, uint8_t *scratch,
                                size_t scratch_len, const float *weights, size_t weights_len, uint32_t n,
                                float strength, uint32_t edge);

uint32_t corbelrush_shift_planes(uint8_t *planes, size_t planes_len, uint32_t w, uint32_t h, float dx, float dy);

uint32_t corbelrush_shadow_planes(uint8_t *planes, size_t planes_len, uint32_t w, uint32_t h, uint8_t *scratch,
                                  size_t scratch_len, uint8_t *copy, size_t copy_len, const float *weights,
                                  size_t weights_len, uint32_t n, uint32_t edge, float dx, float dy, float strength,
                                  float red, float green, float blue, float alpha, uint32_t composite);

/*
 * Looks for the first pixel of which r, g or b exceeds a, rows downward, each left to right. *found is 1 and *place its
 * place y * w + x, or both are 0 where there is none.
 *
 * Refusals: 1, 2; *found and *place are 0.
 * The picture is only read.
 */
uint32_t corbelrush_check(const uint8_t *picture, size_t picture_len, uint32_t w, uint32_t h, uint32_t *found,
                          uint64_t *place);

/* An entry of a list of changes: a place y * w + x, and the pixel that stood there, r | g << 8 | b << 16 | a << 24. */
typedef struct {
    uint32_t place, pixel;
} corbelrush_change;

/*
 * Mends a picture: each r, g or b above its alpha is lowered to that alpha, and no other byte changes. The place and the
 * old pixel of each pixel changed go into the list, in the order of their places, and *count is how many there are: the
 * number of pixels that corbelrush_check would object to. Room for w * h entries is always enough, and a picture that is
 * mended already needs none.
 *
 * Refusals: 1, 2, 17 (room below the number of such pixels); *count is 0, and no entry has changed.
 * Done: picture is mended, the first *count entries of list are the changes, the rest of it is as it was.
 */
uint32_t corbelrush_mend(uint8_t *picture, size_t picture_len, uint32_t w, uint32_t h, corbelrush_change *list,
                         size_t room, uint64_t *count);

/*
 * Puts the old pixels of a list of changes back, each into its place: from a mended picture and the first *count entries
 * of its list, the picture as it was before corbelrush_mend. Any pixels are taken, and a list of no entries too.
 *
 * Refusals: 1, 2, 18 (a place is w * h or above, or not above the place before it).
 * Done: picture is rebuilt. The list is only read.
 */
uint32_t corbelrush_rebuild(uint8_t *picture, size_t picture_len, uint32_t w, uint32_t h,
                            const corbelrush_change *list, size_t count);

/* A point that made a pixel: a place y * w + x, and its share, over 2^(10n+32). */
typedef struct {
    uint64_t place, share;
} corbelrush_point;

/*
 * Answers the share of the input place in the output place: the exact whole-number weight, over 2^(10n+32), that the input
 * has in the blur of a picture of w by h pixels with these numerators over 65536 (count of them), n decimations and this
 * edge rule, with nothing rounded. Summed over all inputs, share times channel is the exact blur that the blur is within
 * 2n + 1 of, for every picture. Places are y * w + x.
 *
 * Refusals: 1, 4, 9, 21 (n above 3), 22 (a place is w * h or above), 14 (the numerators sum to more than 65536); *share is 0.
 */
uint32_t corbelrush_share(uint32_t w, uint32_t h, const uint32_t *numerators, size_t count, uint32_t n, uint32_t edge,
                          uint64_t out_place, uint64_t in_place, uint64_t *share);

/*
 * Lists the points that made the output place: each input whose share is not 0, once, in the order of their places, with
 * its share as corbelrush_share answers it. *points is how many there are. Room for w * h entries is always enough.
 *
 * Refusals: 1, 4, 9, 21, 22, 14, 17 (room below the number of points); *points is 0, and no entry has changed.
 * Done: the first *points entries of list are the points, the rest of it is as it was.
 */
uint32_t corbelrush_shares(uint32_t w, uint32_t h, const uint32_t *numerators, size_t count, uint32_t n, uint32_t edge,
                           uint64_t out_place, corbelrush_point *list, size_t room, uint64_t *points);

/*
 * The number that a view of a picture gets: 0 where corbelrush_sample reads it.
 *
 * Refusals: 1, 2, 9.
 * The picture is only read.
 */
uint32_t corbelrush_view(const uint8_t *picture, size_t picture_len, uint32_t w, uint32_t h, uint32_t edge);

/*
 * The pixel at any column x and row y, each extended by the edge rule: r | g << 8 | b << 16 | a << 24.
 * A view that corbelrush_view refuses has 0 everywhere.
 * The picture is only read.
 */
uint32_t corbelrush_sample(const uint8_t *picture, size_t picture_len, uint32_t w, uint32_t h, uint32_t edge, int32_t x,
                           int32_t y);

/*
 * How far a blur with these weights and n decimations spreads a pixel: *spread is the variance along an axis, about the
 * place where the pixel stood, in units of 1/131072 of a square pixel. Halving and doubling at level i, i below n, add
 * 0.75 * 4^i square pixels each, and the weights 4^n times what they have at n = 0: 1/4, 1/2, 1/4 has 65536 at n = 0,
 * and 458752 at n = 1.
 *
 * Refusals: 4, 6, 11 (a weight that is NaN, infinite, below 0 or above 1 too); *spread is 0.
 * The weights are only read.
 */
uint32_t corbelrush_spread(const float *weights, size_t weights_len, uint32_t n, uint64_t *spread);

/*
 * Builds the area sums of a picture: entry y * w + x of the table is the sum of all alphas above and to the left of that
 * pixel, itself included, modulo 2^32.
 *
 * Refusals: 1, 2, 3 (table under w * h entries).
 * Done: the first w * h entries of table are the sums, the rest of it is as it was. The picture is only read.
 */
uint32_t corbelrush_area_build(const uint8_t *picture, size_t picture_len, uint32_t w, uint32_t h, uint32_t *table,
                               size_t entries);

/*
 * The sum of the alphas of a box, wide columns from x on and high rows from y on, from at most four entries of the table
 * that corbelrush_area_build made. Of any other table *sum is the same combination of entries, modulo 2^32.
 *
 * Refusals: 1, 3 (table under w * h entries), 20 (the box has no pixel or more than 16843009, or a part of it lies
 * outside the picture); *sum is 0.
 * The table is only read.
 */
uint32_t corbelrush_area_box(const uint32_t *table, size_t entries, uint32_t w, uint32_t h, uint32_t x, uint32_t y,
                             uint32_t wide, uint32_t high, uint64_t *sum);

/*
 * Carries the change of one pixel's alpha into a table, by its place y * w + x: each entry at or below and right of it
 * gains new_alpha - old_alpha, modulo 2^32, and no other changes. The table that was built before the change is then the
 * one that would be built after it.
 *
 * Refusals: 1, 3 (table under w * h entries), 20 (place is w * h or above).
 * Done: table is updated, its entries past the first w * h are as they were.
 */
uint32_t corbelrush_area_update(uint32_t *table, size_t entries, uint32_t w, uint32_t h, uint64_t place,
                                uint8_t old_alpha, uint8_t new_alpha);

/*
 * Where a picture of a plate file lies, by its index counted from 0: *length bytes from plate + *offset on, *w by *h
 * pixels.
 *
 * Refusals: 10, 12; *w, *h, *offset and *length are 0.
 * The plate is only read.
 */
uint32_t corbelrush_plate_picture(const uint8_t *plate, size_t plate_len, uint32_t index, uint32_t *w, uint32_t *h,
                                  uint64_t *offset, uint64_t *length);

/*
 * What a plate file names beside a picture, by its index counted from 0: *unit is CORBELRUSH_MILLIOHM or
 * CORBELRUSH_MICROOHM, and *sheet the number of its sheet. In a plate of version 1 both are 0.
 *
 * Refusals: 10, 12; *unit and *sheet are 0.
 * The plate is only read.
 */
uint32_t corbelrush_plate_label(const uint8_t *plate, size_t plate_len, uint32_t index, uint32_t *unit,
                                uint16_t *sheet);

/*
 * Blurs every picture of a plate file where it lies, with weights 1/4, 1/2, 1/4, n = 1, Duplicate and strength 1.
 *
 * Refusals: 10, 3 (scratch shorter than the plate's longest picture).
 * Done: each picture of plate is blurred and its table is as it was, units and sheets too; as many first bytes of
 * scratch as the longest picture has are 0, the rest of it is as it was.
 */
uint32_t corbelrush_plate_job(uint8_t *plate, size_t plate_len, uint8_t *scratch, size_t scratch_len);

/*
 * Starts a plate file of no pictures in the first bytes of buffer, whatever they held: *used is its length, 4. The
 * version, 1, 2 or 3, is the one that the plate keeps: no plate mixes them, and none grows into another. Releases that
 * know no version 3 refuse its plates as 10.
 *
 * Refusals: 10 (the version is none of 1, 2 and 3), 13 (buffer under 4 bytes); *used is 0.
 * Done: the first *used bytes of buffer are the plate, the rest of it is as it was.
 */
uint32_t corbelrush_plate_start(uint8_t *buffer, size_t buffer_len, uint32_t version, uint64_t *used);

/*
 * Adds a picture to the plate file that the first used bytes of buffer are: its table gets one entry more, the pictures
 * in it move on by that entry, and the new one comes last. Looked up in the new plate, each old picture has the index,
 * the sides, the bytes, the unit and the sheet that it had. Bytes after the first used ones are no part of the plate.
 * In a plate of version 2 or 3 the new picture has this unit, CORBELRUSH_MILLIOHM or CORBELRUSH_MICROOHM, and this sheet.
 * A plate of version 1 has no place for them and ignores both, whatever they are, so that they may be 0 and 0.
 *
 * Refusals, in this order: 10 (used is beyond buffer_len, those bytes are no plate, or they are one of version 2 or 3 and
 * unit is neither 1 nor 2), 1, 2, 13 (the plate would have more than 64 pictures, more than 16384 bytes in version 1 or 2,
 * more than 16777216 in version 3, or more than buffer_len). So a side of 4097 to 16384 is 13 in version 1 or 2, and not
 * 1: its picture alone has more bytes. On refusal *new_used is 0, so do not hand in the address of your own length.
 * Done: the first *new_used bytes of buffer are the plate, the rest of it is as it was. The picture is only read.
 */
uint32_t corbelrush_plate_add(uint8_t *buffer, size_t buffer_len, uint64_t used, const uint8_t *picture,
                              size_t picture_len, uint32_t w, uint32_t h, uint32_t unit, uint16_t sheet,
                              uint64_t *new_used);

/*
 * Reads a Netpbm PAM file with straight alpha: its channels are multiplied by their alpha, to the nearest whole number.
 * The header is spelt as corbelrush_pam_write spells it, to the byte, its sides are 1 to 16384, and 4wh bytes follow
 * it, no more and no fewer. *w and *h are the sides and *written is 4wh, how many bytes of picture were written.
 *
 * Refusals: 15, 3 (picture under 4wh bytes); *w, *h and *written are 0.
 * Done: the first 4wh bytes of picture are the file's picture, premultiplied; the rest of it is as it was.
 */
uint32_t corbelrush_pam_read(const uint8_t *file, size_t file_len, uint8_t *picture, size_t picture_len, uint32_t *w,
                             uint32_t *h, uint64_t *written);

/*
 * Writes a picture as a Netpbm PAM file with straight alpha: its channels are divided by their alpha, to the nearest
 * whole number, and are 0 where the alpha is 0. *written is the length of the file: 4wh, and at most 73 bytes of header:
 *
 *     P7
 *     WIDTH (w)
 *     HEIGHT (h)
 *     DEPTH 4
 *     MAXVAL 255
 *     TUPLTYPE RGB_ALPHA
 *     ENDHDR
 *
 * each line ended by one newline. What was written reads back as the same picture.
 *
 * Refusals: 1, 2, 16 (r, g or b of a pixel exceeds a), 3 (file under *written bytes); *written is 0, and *place is the
 * place y * w + x of the first such pixel on 16, and 0 else, also when done.
 * Done: the first *written bytes of file are the PAM file; the rest of it is as it was.
 */
uint32_t corbelrush_pam_write(const uint8_t *picture, size_t picture_len, uint32_t w, uint32_t h, uint8_t *file,
                              size_t file_len, uint64_t *written, uint64_t *place);

#ifdef __cplusplus
}
#endif

#endif
