/*
 * Mends pictures, compares each with the rule written plainly, checks it, mends it again, rebuilds the old one and
 * compares that; and tries each refusal. Every lent byte and entry is held to what it must be, and those beyond them.
 */
#include <stdio.h>
#include <stdlib.h>
#include <string.h>

#include "corbelrush.h"

enum { SIDE = 40, MOST = SIDE * SIDE, SPARE = 3, ROUNDS = 20000 };

static uint8_t old[4 * MOST], picture[4 * MOST], want[4 * MOST];
static corbelrush_change list[MOST + SPARE], listed[MOST + SPARE];
static unsigned long calls;

static uint32_t dice(void)
{
    static uint64_t state = 88172645463325252u;
    state ^= state << 13;
    state ^= state >> 7;
    state ^= state << 17;
    return (uint32_t)(state >> 16);
}

static void hold(int right, const char *what, uint32_t w, uint32_t h)
{
    calls++;
    if (right) return;
    printf("%s: wrong, at %u by %u\n", what, (unsigned)w, (unsigned)h);
    exit(1);
}

/* A picture of bytes of any kind, of which one pixel in `rare` may exceed its alpha; the bytes beyond it are 165. */
static void draw(size_t area, uint32_t rare)
{
    memset(old, 165, sizeof old);
    for (size_t i = 0; i < area; i++) {
        uint32_t alpha = dice() % 4 == 0 ? 255 * (dice() & 1) : dice() & 255, most = dice() % rare ? alpha : 255;
        for (int c = 0; c < 3; c++) old[4 * i + c] = (uint8_t)(dice() % 3 ? dice() % (most + 1) : most);
        old[4 * i + 3] = (uint8_t)alpha;
    }
}

/* The rule: want and listed, from old and list; the count. */
static size_t mend_plainly(size_t area)
{
    size_t count = 0;
    memcpy(want, old, sizeof old);
    memcpy(listed, list, sizeof list);
    for (size_t i = 0; i < area; i++) {
        const uint8_t *p = old + 4 * i;
        int fails = 0;
        for (int c = 0; c < 3; c++)
            if (p[c] > p[3]) want[4 * i + c] = p[3], fails = 1;
        if (!fails) continue;
        listed[count].place = (uint32_t)i;
        listed[count++].pixel = p[0] | (uint32_t)p[1] << 8 | (uint32_t)p[2] << 16 | (uint32_t)p[3] << 24;
    }
    return count;
}

static int are(const uint8_t *bytes, const corbelrush_change *entries)
{
    return memcmp(picture, bytes, sizeof picture) == 0 && memcmp(list, entries, sizeof list) == 0;
}

/* A list that the rebuild must refuse, and the picture as it was. */
static void spoiled(uint32_t w, uint32_t h, size_t count, size_t at, uint32_t place)
{
    uint32_t kept = list[at].place;
    list[at].place = place;
    hold(corbelrush_rebuild(picture, 4 * w * h, w, h, list, count) == CORBELRUSH_WRONG_LIST
             && memcmp(picture, want, sizeof want) == 0, "a wrong list", w, h);
    list[at].place = kept;
}

static void round_of(uint32_t w, uint32_t h, uint32_t rare)
{
    size_t area = (size_t)w * h, len = 4 * area;
    uint64_t number = 7, place = 7;
    uint32_t found = 7;
    draw(area, rare);
    for (size_t i = 0; i < MOST + SPARE; i++) list[i].place = dice(), list[i].pixel = dice();
    size_t count = mend_plainly(area), room = count + dice() % (SPARE + 1);
    corbelrush_change before[MOST + SPARE];
    memcpy(before, list, sizeof list);
    memcpy(picture, old, sizeof old);

    hold(corbelrush_mend(picture, len, 0, h, list, room, &number) == CORBELRUSH_WRONG_SIDES && number == 0, "1", w, h);
    number = 7;
    hold(corbelrush_mend(picture, len - 1, w, h, list, 0, &number) == CORBELRUSH_WRONG_LENGTH && number == 0, "2", w, h);
    number = 7;
    if (count > 0)
        hold(corbelrush_mend(picture, len, w, h, list, count - 1, &number) == CORBELRUSH_LIST_FULL && number == 0, "17", w, h);
    hold(are(old, before), "refused and changed", w, h);

    hold(corbelrush_mend(picture, len, w, h, list, room, &number) == CORBELRUSH_DONE && number == count, "the count", w, h);
    hold(are(want, listed), "the mended picture or the list", w, h);
    hold(corbelrush_check(picture, len, w, h, &found, &place) == CORBELRUSH_DONE && found == 0, "the check", w, h);
    number = 7;
    hold(corbelrush_mend(picture, len, w, h, NULL, 0, &number) == CORBELRUSH_DONE && number == 0, "again", w, h);
    hold(are(want, listed), "again and changed", w, h);

    hold(corbelrush_rebuild(picture, len, w, 16385, list, count) == CORBELRUSH_WRONG_SIDES, "rebuild: 1", w, h);
    hold(corbelrush_rebuild(picture, len - 4, w, h, list, count) == CORBELRUSH_WRONG_LENGTH, "rebuild: 2", w, h);
    if (count > 0) spoiled(w, h, count, count - 1, (uint32_t)area);
    if (count > 1) spoiled(w, h, count, count - 1, list[count - 2].place);
    if (count > 1) spoiled(w, h, count, 0, list[1].place + 1);
    hold(are(want, listed), "rebuild: refused and changed", w, h);
    hold(corbelrush_rebuild(picture, len, w, h, list, count) == CORBELRUSH_DONE, "rebuild", w, h);
    hold(are(old, listed), "the old picture", w, h);
}

int main(void)
{
    for (int i = 0; i < ROUNDS; i++) round_of(1 + dice() % SIDE, 1 + dice() % SIDE, 1 + dice() % 50);
    round_of(1, 1, 1);
    round_of(SIDE, SIDE, 1000000);
    printf("mends: %d pictures mended, compared, checked, mended again and rebuilt; %lu calls and comparisons hold\n", ROUNDS + 2, calls);
    return 0;
}
