/* Rule 20: shares, as the exact blur of a picture that is 1 at one input; it is worked out along each axis by itself. */
#include <string.h>

#include "rules.h"

static uint64_t line[SIDE], made[SIDE];

static uint64_t at(int64_t c, uint32_t s, uint32_t edge)
{
    int64_t i = extended(c, s, edge);
    return i < 0 ? 0 : line[i];
}

static void made_is_line(uint32_t s) { memcpy(line, made, s * sizeof *line); }

/* Rule 5.9 along a line of s elements, which stand in `line`. */
static void exact(uint32_t s, uint32_t n, const Case *c)
{
    uint32_t half = (s + 1) / 2;
    const uint32_t *numerators = after[KERNEL].words;
    int64_t taps = (int64_t)c->count[KERNEL];
    if (n == 0) {
        for (int64_t x = 0; x < s; x++) {
            made[x] = 0;
            for (int64_t j = 0; j < taps; j++) made[x] += numerators[j] * at(x + j - taps / 2, s, c->edge);
        }
        made_is_line(s);
        return;
    }
    for (int64_t x = 0; x < half; x++)
        made[x] = at(2 * x - 1, s, c->edge) + 3 * at(2 * x, s, c->edge) + 3 * at(2 * x + 1, s, c->edge) + at(2 * x + 2, s, c->edge);
    made_is_line(half);
    exact(half, n - 1, c);
    for (int64_t i = 0; i < s; i++) made[i] = at(i % 2 ? i / 2 + 1 : i / 2 - 1, half, c->edge) + 3 * at(i / 2, half, c->edge);
    made_is_line(s);
}

/* What the input has in the output along a line of s elements. */
static uint64_t along(uint32_t s, uint64_t output, uint64_t input, const Case *c)
{
    memset(line, 0, s * sizeof *line);
    line[input] = 1;
    exact(s, c->n, c);
    return line[output];
}

static uint32_t refused_before_sum(const Case *c)
{
    if (sides_refused(c)) return 1;
    if (c->count[KERNEL] == 0 || c->count[KERNEL] > 33) return 4;
    if (c->edge > 3) return 9;
    if (c->n > 3) return 21;
    return c->place >= bytes_of(c) / 4 ? 22 : 0;
}

static int sum_refused(const Case *c)
{
    uint64_t sum = 0;
    for (size_t j = 0; j < c->count[KERNEL]; j++) sum += after[KERNEL].words[j];
    return sum > 65536;
}

uint32_t rule_share(Case *c)
{
    uint32_t refused = refused_before_sum(c);
    if (!refused && c->in_place >= bytes_of(c) / 4) refused = 22;
    if (!refused && sum_refused(c)) refused = 14;
    if (refused) return refused;
    c->out[0] = along(c->w, c->place % c->w, c->in_place % c->w, c) * along(c->h, c->place / c->w, c->in_place / c->w, c);
    return 0;
}

uint32_t rule_shares(Case *c)
{
    static uint64_t columns[SIDE], rows[SIDE];
    uint64_t count = 0;
    uint32_t refused = refused_before_sum(c);
    if (!refused && sum_refused(c)) refused = 14;
    if (refused) return refused;
    for (uint32_t x = 0; x < c->w; x++) columns[x] = along(c->w, c->place % c->w, x, c);
    for (uint32_t y = 0; y < c->h; y++) rows[y] = along(c->h, c->place / c->w, y, c);
    for (uint64_t i = 0; i < bytes_of(c) / 4; i++) count += columns[i % c->w] * rows[i / c->w] != 0;
    if (c->count[LIST] < count) return 17;
    for (uint64_t i = 0; i < bytes_of(c) / 4; i++) {
        uint64_t share = columns[i % c->w] * rows[i / c->w];
        if (share) after[LIST].points[c->out[0]++] = (corbelrush_point){i, share};
    }
    return 0;
}
