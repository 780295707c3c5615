/* Rules 4.7, 9 and 19: check, mender, rebuilder, view, sample, spread and area sums. */
#include <math.h>

#include "rules.h"

int exceeds(const uint8_t *pixel) { return pixel[0] > pixel[3] || pixel[1] > pixel[3] || pixel[2] > pixel[3]; }

uint32_t packed(const uint8_t *pixel)
{
    return pixel[0] | (uint32_t)pixel[1] << 8 | (uint32_t)pixel[2] << 16 | (uint32_t)pixel[3] << 24;
}

uint32_t rule_check(Case *c)
{
    uint32_t refused = picture_refused(c);
    if (refused) return refused;
    for (uint64_t i = 0; i < bytes_of(c) / 4; i++)
        if (exceeds(after[MAIN].bytes + 4 * i)) {
            c->out[0] = 1;
            c->out[1] = i;
            break;
        }
    return 0;
}

uint32_t rule_mend(Case *c)
{
    uint8_t *picture = after[MAIN].bytes;
    uint64_t found = 0, count = 0;
    uint32_t refused = picture_refused(c);
    if (refused) return refused;
    for (uint64_t i = 0; i < bytes_of(c) / 4; i++) found += (uint64_t)exceeds(picture + 4 * i);
    if (c->count[LIST] < found) return 17;
    for (uint64_t i = 0; i < bytes_of(c) / 4; i++) {
        uint8_t *pixel = picture + 4 * i;
        if (!exceeds(pixel)) continue;
        after[LIST].changes[count++] = (corbelrush_change){(uint32_t)i, packed(pixel)};
        for (int k = 0; k < 3; k++)
            if (pixel[k] > pixel[3]) pixel[k] = pixel[3];
    }
    c->out[0] = count;
    return 0;
}

uint32_t rule_rebuild(Case *c)
{
    const corbelrush_change *list = after[LIST].changes;
    uint32_t refused = picture_refused(c);
    if (refused) return refused;
    for (size_t i = 0; i < c->count[LIST]; i++)
        if (list[i].place >= bytes_of(c) / 4 || (i > 0 && list[i].place <= list[i - 1].place)) return 18;
    for (size_t i = 0; i < c->count[LIST]; i++)
        for (int k = 0; k < 4; k++) after[MAIN].bytes[4 * (size_t)list[i].place + k] = (uint8_t)(list[i].pixel >> 8 * k);
    return 0;
}

uint32_t rule_view(Case *c)
{
    uint32_t refused = picture_refused(c);
    return refused ? refused : c->edge > 3 ? 9 : 0;
}

uint32_t rule_sample(Case *c)
{
    if (rule_view(c)) return 0;
    int64_t x = extended((int32_t)c->x, c->w, c->edge), y = extended((int32_t)c->y, c->h, c->edge);
    return x < 0 || y < 0 ? 0 : packed(after[MAIN].bytes + 4 * (y * c->w + x));
}

uint32_t rule_spread(Case *c)
{
    size_t taps = c->count[KERNEL];
    uint64_t sum = 0, squares = 0, scale = (uint64_t)1 << 2 * (c->n & 15);
    if (taps == 0 || taps > 33) return 4;
    if (c->n > 14) return 6;
    for (size_t j = 0; j < taps; j++) {
        double numerator = (double)after[KERNEL].floats[j] * 65536;
        int64_t distance = (int64_t)j - (int64_t)(taps / 2);
        if (!(numerator >= 0 && numerator <= 65536) || numerator != floor(numerator)) return 11;
        sum += (uint64_t)numerator;
        squares += (uint64_t)numerator * (uint64_t)(distance * distance);
    }
    if (sum != 65536) return 11;
    c->out[0] = 2 * scale * squares + 65536 * (scale - 1);
    return 0;
}

static int table_short(const Case *c) { return c->count[LIST] < bytes_of(c) / 4; }

uint32_t rule_area_build(Case *c)
{
    uint32_t refused = picture_refused(c);
    if (!refused && table_short(c)) refused = 3;
    if (refused) return refused;
    uint32_t *table = after[LIST].words;
    for (uint32_t y = 0; y < c->h; y++) {
        uint32_t row = 0;
        for (uint32_t x = 0; x < c->w; x++) {
            size_t i = (size_t)y * c->w + x;
            row += after[MAIN].bytes[4 * i + 3];
            table[i] = row + (y > 0 ? table[i - c->w] : 0);
        }
    }
    return 0;
}

/* Rule 19.4: the entry of the pixel before x and y, 0 at the border. */
static uint32_t corner(const Case *c, uint64_t x, uint64_t y)
{
    return x == 0 || y == 0 ? 0 : after[LIST].words[(y - 1) * c->w + x - 1];
}

uint32_t rule_area_box(Case *c)
{
    uint64_t x = c->x, y = c->y, right = x + c->wide, bottom = y + c->high;
    if (sides_refused(c)) return 1;
    if (table_short(c)) return 3;
    if (c->wide == 0 || c->high == 0 || right > c->w || bottom > c->h || (uint64_t)c->wide * c->high > 16843009) return 20;
    c->out[0] = (uint32_t)(corner(c, right, bottom) - corner(c, x, bottom) - (corner(c, right, y) - corner(c, x, y)));
    return 0;
}

uint32_t rule_area_update(Case *c)
{
    if (sides_refused(c)) return 1;
    if (table_short(c)) return 3;
    if (c->place >= bytes_of(c) / 4) return 20;
    for (uint64_t y = c->place / c->w; y < c->h; y++)
        for (uint64_t x = c->place % c->w; x < c->w; x++)
            after[LIST].words[y * c->w + x] += (uint32_t)c->new_alpha - c->old_alpha;
    return 0;
}
