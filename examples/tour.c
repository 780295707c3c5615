/*
 * A tour of the library: a white square is blurred and moved, checked and sampled, a call is refused, and a plate is
 * filled with pictures.
 * Pictures are printed as their alphas, from ' ' for 0 to '@' for 255.
 */
#include <stdio.h>

#include "corbelrush.h"

enum { W = 32, H = 10, BYTES = 4 * W * H };

static const float weights[] = {0.25f, 0.5f, 0.25f};
enum { TAPS = sizeof weights / sizeof *weights };

static uint8_t picture[BYTES], scratch[BYTES], plate[16384];

/* A white square in the upper left. */
static void draw_square(void)
{
    for (int i = 0; i < BYTES; i++) {
        int x = i / 4 % W, y = i / 4 / W;
        picture[i] = x >= 2 && x < 10 && y >= 1 && y < 5 ? 255 : 0;
    }
}

static void show(const char *what, uint32_t number)
{
    printf("%s: %s (%u)\n", what, number == CORBELRUSH_DONE ? "done" : "refused", (unsigned)number);
    for (int y = 0; y < H; y++) {
        putchar('|');
        for (int x = 0; x < W; x++) putchar(" .:-=+*#%@"[picture[4 * (y * W + x) + 3] * 9 / 255]);
        puts("|");
    }
}

int main(void)
{
    draw_square();
    show("a square", CORBELRUSH_DONE);
    show("blurred, one decimation, nothing beyond the border",
         corbelrush_blur(picture, BYTES, W, H, scratch, BYTES, weights, TAPS, 1, 1.0f, CORBELRUSH_NONE));
    show("moved by 17.5 and 4", corbelrush_shift(picture, BYTES, W, H, 17.5f, 4.0f));
    show("blurred with 15 decimations", corbelrush_blur(picture, BYTES, W, H, scratch, BYTES, weights, TAPS, 15, 1.0f,
                                                        CORBELRUSH_NONE));

    uint32_t found;
    uint64_t place, spread;
    corbelrush_check(picture, BYTES, W, H, &found, &place);
    printf("premultiplied: %s\n", found ? "no" : "yes");
    picture[4 * (7 * W + 3)] = 1;
    corbelrush_check(picture, BYTES, W, H, &found, &place);
    printf("with red 1 and alpha 0 at 3, 7: %s, at place %u\n", found ? "no" : "yes", (unsigned)place);

    uint32_t pixel = corbelrush_sample(picture, BYTES, W, H, CORBELRUSH_MIRROR, 22, H + 2);
    printf("3 rows below the lower border, mirrored: alpha %u\n", (unsigned)(pixel >> 24));

    corbelrush_spread(weights, TAPS, 1, &spread);
    printf("spread of the blur: %.2f square pixels\n", (double)spread / 131072);

    uint64_t used, new_used, offset, length;
    uint32_t w, h, unit, number, count = 0;
    uint16_t sheet;
    corbelrush_plate_start(plate, sizeof plate, 2, &used);
    for (;;) {
        number = corbelrush_plate_add(plate, sizeof plate, used, picture, BYTES, W, H, CORBELRUSH_MILLIOHM,
                                      (uint16_t)(count + 1), &new_used);
        if (number != CORBELRUSH_DONE) break;
        used = new_used; /* not &used above: a refusal answers 0, and the length would be lost */
        count++;
    }
    printf("a plate of %u pictures, %u bytes: one more is refused (%u)\n", (unsigned)count, (unsigned)used,
           (unsigned)number);
    corbelrush_plate_picture(plate, used, count - 1, &w, &h, &offset, &length);
    printf("the last one is %u by %u, %u bytes from %u on\n", (unsigned)w, (unsigned)h, (unsigned)length,
           (unsigned)offset);
    corbelrush_plate_label(plate, used, count - 1, &unit, &sheet);
    printf("it is in %s, of sheet %u\n", unit == CORBELRUSH_MILLIOHM ? "milliohms" : "another unit", (unsigned)sheet);
    return 0;
}
