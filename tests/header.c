/*
 * The header's words and limits beside the library: each number has words of its own, and at each limit a call is accepted
 * that one step further is refused with the limit's number.
 */
#include <stdio.h>
#include <stdlib.h>
#include <string.h>

#include "corbelrush.h"

static int failed;

static void must(int holds, const char *what)
{
    if (!holds) {
        printf("header: %s\n", what);
        failed = 1;
    }
}

/* The first is accepted, so far as the limit goes, and the second refused for it. */
static void limit(uint32_t at, uint32_t beyond, uint32_t number, const char *name)
{
    must(at != number && beyond == number, name);
}

static void words(void)
{
    must(strcmp(corbelrush_says(0), "done") == 0, "0 is not done");
    for (uint32_t i = 0; i <= 23; i++)
        for (uint32_t j = 0; j < i; j++) must(strcmp(corbelrush_says(i), corbelrush_says(j)) != 0, "two numbers have the same words");
    must(strcmp(corbelrush_says(23), corbelrush_says(UINT32_MAX)) == 0, "a number above 22 has words of its own");
}

static uint32_t checked(uint32_t w, uint32_t h)
{
    uint32_t found;
    uint64_t place;
    return corbelrush_check(NULL, 0, w, h, &found, &place);
}

static uint32_t spread_of(const float *weights, size_t taps, uint32_t n, uint64_t *spread)
{
    return corbelrush_spread(weights, taps, n, spread);
}

static uint32_t summed(uint32_t first, uint32_t second)
{
    const uint32_t numerators[2] = {first, second};
    uint8_t picture[4] = {0}, scratch[4];
    return corbelrush_blur_whole(picture, 4, 1, 1, scratch, 4, numerators, 2, 0, CORBELRUSH_NONE);
}

static uint32_t shared(uint32_t n)
{
    const uint32_t one = CORBELRUSH_GRID;
    uint64_t share;
    return corbelrush_share(1, 1, &one, 1, n, CORBELRUSH_NONE, 0, 0, &share);
}

static void of_pictures(void)
{
    static float weights[CORBELRUSH_MAX_TAPS + 1];
    const float apart[3] = {0.5f, 0.0f, 0.5f};
    uint64_t spread;
    weights[CORBELRUSH_MAX_TAPS / 2] = 1.0f;
    limit(checked(CORBELRUSH_MAX_SIDE, 1), checked(CORBELRUSH_MAX_SIDE + 1, 1), CORBELRUSH_WRONG_SIDES, "MAX_SIDE");
    limit(spread_of(weights, CORBELRUSH_MAX_TAPS, 0, &spread), spread_of(weights, CORBELRUSH_MAX_TAPS + 1, 0, &spread),
          CORBELRUSH_WRONG_TAPS, "MAX_TAPS");
    limit(spread_of(weights, CORBELRUSH_MAX_TAPS, CORBELRUSH_MAX_DECIMATIONS, &spread),
          spread_of(weights, CORBELRUSH_MAX_TAPS, CORBELRUSH_MAX_DECIMATIONS + 1, &spread), CORBELRUSH_TOO_DEEP,
          "MAX_DECIMATIONS");
    limit(shared(CORBELRUSH_MAX_SHARE_DECIMATIONS), shared(CORBELRUSH_MAX_SHARE_DECIMATIONS + 1),
          CORBELRUSH_TOO_DEEP_TO_SHARE, "MAX_SHARE_DECIMATIONS");
    limit(summed(1, CORBELRUSH_GRID - 1), summed(1, CORBELRUSH_GRID), CORBELRUSH_WRONG_SUM, "GRID");
    must(spread_of(apart, 3, 0, &spread) == CORBELRUSH_DONE && spread == CORBELRUSH_SPREAD_UNIT, "SPREAD_UNIT");
}

/* The largest box that sides to 16384 allow, and the smallest above the limit. */
static void of_boxes(void)
{
    enum { W = 1092, H = 15424, WIDER = 1609, HIGHER = 10468 };
    const size_t entries = (size_t)WIDER * HIGHER;
    uint32_t *table = (uint32_t *)calloc(entries, sizeof *table);
    uint64_t sum;
    must(table != NULL, "no room for a table");
    must(W * H <= CORBELRUSH_MAX_BOX && WIDER * HIGHER > CORBELRUSH_MAX_BOX, "MAX_BOX");
    limit(corbelrush_area_box(table, entries, W, H, 0, 0, W, H, &sum),
          corbelrush_area_box(table, entries, WIDER, HIGHER, 0, 0, WIDER, HIGHER, &sum), CORBELRUSH_WRONG_BOX, "MAX_BOX");
    free(table);
}

static uint8_t buffer[CORBELRUSH_MAX_PLATE_BYTES + 4], picture[CORBELRUSH_MAX_PLATE_BYTES];

/* What adding a picture answers; the plate grows only where it is done. */
static uint32_t added(uint64_t *used, uint32_t w, uint32_t h)
{
    uint64_t new_used;
    uint32_t number = corbelrush_plate_add(buffer, sizeof buffer, *used, picture, 4 * (size_t)w * h, w, h,
                                           CORBELRUSH_MILLIOHM, 0, &new_used);
    if (number == CORBELRUSH_DONE) *used = new_used;
    return number;
}

static uint64_t started(uint32_t version)
{
    uint64_t used;
    must(corbelrush_plate_start(buffer, sizeof buffer, version, &used) == CORBELRUSH_DONE, "a plate is not started");
    return used;
}

static void of_plates(void)
{
    uint64_t used = started(1), none;
    uint32_t last;
    limit(CORBELRUSH_DONE, corbelrush_plate_start(buffer, sizeof buffer, CORBELRUSH_MAX_PLATE_VERSION + 1, &none),
          CORBELRUSH_BROKEN_PLATE, "MAX_PLATE_VERSION");
    for (int i = 1; i < CORBELRUSH_MAX_PLATE_PICTURES; i++) must(added(&used, 1, 1) == CORBELRUSH_DONE, "a picture is not added");
    last = added(&used, 1, 1); /* by itself: C leaves open which argument of a call is worked out first */
    limit(last, added(&used, 1, 1), CORBELRUSH_NO_ROOM, "MAX_PLATE_PICTURES");
    used = started(2);
    must(added(&used, 1023, 3) == CORBELRUSH_DONE && added(&used, 1, 1013) == CORBELRUSH_DONE, "a plate is not filled");
    must(added(&used, 2, 1) == CORBELRUSH_NO_ROOM && added(&used, 1, 1) == CORBELRUSH_DONE, "a plate's last bytes");
    must(used == CORBELRUSH_SMALL_PLATE_BYTES, "SMALL_PLATE_BYTES");
    used = started(CORBELRUSH_MAX_PLATE_VERSION);
    must(added(&used, 2048, 2047) == CORBELRUSH_DONE && added(&used, 2040, 1) == CORBELRUSH_NO_ROOM, "a larger plate");
    must(added(&used, 2039, 1) == CORBELRUSH_DONE && used == CORBELRUSH_MAX_PLATE_BYTES, "MAX_PLATE_BYTES");
}

/* The longest header has sides of five digits; that of one pixel has eight digits fewer. */
static void of_files(void)
{
    uint8_t file[4 + CORBELRUSH_PAM_HEADER], pixel[4] = {0};
    uint64_t written, place;
    must(corbelrush_pam_write(pixel, 4, 1, 1, file, sizeof file, &written, &place) == CORBELRUSH_DONE, "a file is not written");
    must(written == 4 + CORBELRUSH_PAM_HEADER - 8, "PAM_HEADER");
}

int main(void)
{
    words();
    of_pictures();
    of_boxes();
    of_plates();
    of_files();
    if (failed) return 1;
    printf("23 numbers have words, and the library keeps the limits of the header\n");
    return 0;
}
