/* The archive with corbelrush_blur_whole alone, linked and called: answers worked out by hand from the rules. */
#include <stdio.h>
#include <string.h>

#include "corbelrush.h"

static int failed, calls;

static void expect(const char *what, int holds)
{
    if (!holds) {
        printf("wrong: %s\n", what);
        failed = 1;
    }
}

/* One row of grey pixels, blurred in place; the scratch holds 7 before. */
static uint32_t row(uint8_t *grey, uint32_t w, const uint32_t *numerators, size_t taps, uint32_t n, uint32_t edge, uint8_t *scratch)
{
    uint8_t picture[32];
    for (uint32_t i = 0; i < 4 * w; i++)
        picture[i] = grey[i / 4];
    memset(scratch, 7, 32);
    uint32_t number = corbelrush_blur_whole(picture, 4 * w, w, 1, scratch, 32, numerators, taps, n, edge);
    for (uint32_t i = 0; i < w; i++) {
        expect("four channels alike", !memcmp(picture + 4 * i, (uint8_t[4]){picture[4 * i], picture[4 * i], picture[4 * i], picture[4 * i]}, 4));
        grey[i] = picture[4 * i];
    }
    calls++;
    return number;
}

int main(void)
{
    uint8_t scratch[32];
    uint8_t three[] = {255, 0, 0};
    expect("3 by 1, Wrap, one decimation", row(three, 3, (uint32_t[]){65536}, 1, 1, CORBELRUSH_WRAP, scratch) == 0 && !memcmp(three, "\x60\x60\x60", 3));
    expect("scratch cleared over 4wh", scratch[0] == 0 && scratch[11] == 0 && scratch[12] == 7);
    static const uint8_t fades[] = {255, 20, 2, 1, 0};
    for (uint32_t n = 0; n < 5; n++) {
        uint8_t one[] = {255};
        expect("1 by 1, None", row(one, 1, (uint32_t[]){0, 65536, 0}, 3, n, CORBELRUSH_NONE, scratch) == 0 && one[0] == fades[n]);
    }
    uint8_t even[] = {100, 200};
    expect("even taps are centred high", row(even, 2, (uint32_t[]){16384, 49152}, 2, 0, CORBELRUSH_DUPLICATE, scratch) == 0 && even[0] == 100 && even[1] == 175);
    uint8_t kept[] = {100, 200};
    expect("a sum above 65536 is refused", row(kept, 2, (uint32_t[]){32768, 32769}, 2, 0, CORBELRUSH_DUPLICATE, scratch) == 14 && kept[0] == 100 && kept[1] == 200 && scratch[0] == 7);
    expect("a sum is not taken modulo 2^32", row(kept, 2, (uint32_t[]){2147483648u, 2147483648u}, 2, 0, CORBELRUSH_DUPLICATE, scratch) == 14);
    if (failed)
        return 1;
    printf("%d calls of it from C, linked alone, answer as they should\n", calls);
    return 0;
}
