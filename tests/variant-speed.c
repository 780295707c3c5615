/*
 * How long each call takes on each variant of the library, of the archive that `tools/native-lib OUTDIR any` writes:
 *   variant-speed [ROUNDS [LARGEST SIDE [PART OF A LINE'S NAME]]]
 * A run of 3 rounds to 1024 takes half a minute; one of 9 rounds to 4096, which is what it does by itself, some minutes.
 * All variants, and the functions as the archive chooses them, are in this process and take turns, on one input; a turn is
 * one call, or as many as take some milliseconds. Times are processor time. A line has the plain variant's nanoseconds a
 * pixel, the least and the median of all rounds, and then what each other variant takes of them: its least over that least,
 * and the median of what it took in each round of the plain variant's time in that round. A line is marked ! where both are
 * over 1.02, and ? where one is. After each turn the bytes that were left are compared with those that the plain variant
 * left. Last comes a table of those medians, the worst of all edge modes, in Markdown.
 */
#define _POSIX_C_SOURCE 200809L
#include <math.h>
#include <stdio.h>
#include <stdlib.h>
#include <string.h>
#include <time.h>

#include "corbelrush.h"

#define FUNCTIONS(EACH, with)                                                                                            \
    EACH(with, blur) EACH(with, blur_whole) EACH(with, shift) EACH(with, shadow) EACH(with, to_planes)                   \
    EACH(with, from_planes) EACH(with, blur_planes) EACH(with, shift_planes) EACH(with, shadow_planes) EACH(with, check) \
    EACH(with, mend) EACH(with, rebuild) EACH(with, pam_read) EACH(with, pam_write) EACH(with, area_build)               \
    EACH(with, sample) EACH(with, shares)
#define FIELD(with, name) __typeof__(&corbelrush_##name) name;
#define DECLARED(with, name) extern __typeof__(corbelrush_##name) with##_corbelrush_##name;
#define FILLED(with, name) .name = with##_corbelrush_##name,
#define CHOSEN(with, name) .name = corbelrush_##name,

struct variant {
    const char *name;
    FUNCTIONS(FIELD, )
};
FUNCTIONS(DECLARED, x86_64)
FUNCTIONS(DECLARED, x86_64_v3)
FUNCTIONS(DECLARED, x86_64_v4)

static struct variant variants[] = {
    {.name = "x86-64", FUNCTIONS(FILLED, x86_64)},
    {.name = "as chosen", FUNCTIONS(CHOSEN, )},
    {.name = "x86-64-v3", FUNCTIONS(FILLED, x86_64_v3)},
    {.name = "x86-64-v4", FUNCTIONS(FILLED, x86_64_v4)},
};
enum { MOST_VARIANTS = 4, MOST_ROUNDS = 99, TURN = 3000000 };

/*
 * What a call works on: input is put back into bytes before each turn; list has room for any list and any table; plain is
 * what the plain variant left in bytes and scratch.
 */
static struct {
    uint32_t w, h, taps, n, edge;
    size_t length, size;
    uint8_t *input, *bytes, *scratch, *copy, *plain;
    corbelrush_point *list;
    float weights[CORBELRUSH_MAX_TAPS];
    uint32_t numerators[CORBELRUSH_MAX_TAPS];
    size_t file;
} on;
#define SIDES on.bytes, on.length, on.w, on.h
#define WORK on.scratch, on.length
#define KERNEL on.weights, on.taps, on.n
#define SHADOW WORK, on.copy, on.length, KERNEL, on.edge, 3, -2, 1, 0.25f, 0.5f, 0.75f, 0.8f

typedef uint32_t call(const struct variant *with);

static uint32_t blur(const struct variant *with) { return with->blur(SIDES, WORK, KERNEL, 1, on.edge); }
static uint32_t blur_whole(const struct variant *with)
{
    return with->blur_whole(SIDES, WORK, on.numerators, on.taps, on.n, on.edge);
}
static uint32_t blur_planes(const struct variant *with) { return with->blur_planes(SIDES, WORK, KERNEL, 1, on.edge); }
static uint32_t shift(const struct variant *with) { return with->shift(SIDES, 3, -2); }
static uint32_t shift_half(const struct variant *with) { return with->shift(SIDES, (float)(on.w / 2), (float)(on.h / 2)); }
static uint32_t shift_planes(const struct variant *with) { return with->shift_planes(SIDES, 3, -2); }
static uint32_t shadow(const struct variant *with) { return with->shadow(SIDES, SHADOW, 0); }
static uint32_t composited(const struct variant *with) { return with->shadow(SIDES, SHADOW, 1); }
static uint32_t shadow_planes(const struct variant *with) { return with->shadow_planes(SIDES, SHADOW, 1); }
static uint32_t to_planes(const struct variant *with) { return with->to_planes(SIDES, WORK); }
static uint32_t from_planes(const struct variant *with) { return with->from_planes(SIDES, WORK); }
static uint32_t area_build(const struct variant *with) { return with->area_build(SIDES, (uint32_t *)on.list, on.length / 4); }

static uint32_t check(const struct variant *with)
{
    uint32_t found;
    uint64_t place;
    return with->check(SIDES, &found, &place);
}

static uint32_t mend(const struct variant *with)
{
    uint64_t count;
    return with->mend(SIDES, (corbelrush_change *)on.list, on.length / 4, &count);
}

/* Straight colour, so that nearly every pixel is changed; what is put back each time is inside the time. */
static uint32_t mend_all(const struct variant *with)
{
    for (size_t i = 0; i < on.length; i++) on.bytes[i] = (uint8_t)(on.input[i] ^ (i % 4 == 3 ? 0 : 0xff));
    return mend(with);
}

static uint32_t rebuild(const struct variant *with)
{
    corbelrush_change *list = (corbelrush_change *)on.list;
    for (size_t i = 0; i < on.length / 4; i++) list[i] = (corbelrush_change){.place = i, .pixel = (uint32_t)i};
    return with->rebuild(SIDES, list, on.length / 4);
}

static uint32_t pam_write(const struct variant *with)
{
    uint64_t written, place;
    uint32_t number = with->pam_write(SIDES, on.scratch, on.length + CORBELRUSH_PAM_HEADER, &written, &place);
    on.file = written;
    return number;
}

static uint32_t pam_read(const struct variant *with)
{
    uint32_t w, h;
    uint64_t written;
    return with->pam_read(on.scratch, on.file, on.bytes, on.length, &w, &h, &written);
}

static uint32_t sample(const struct variant *with)
{
    uint32_t sum = 0;
    for (uint32_t y = 0; y < on.h; y++)
        for (uint32_t x = 0; x < on.w; x++) sum += with->sample(SIDES, on.edge, (int32_t)(x + on.w / 2), (int32_t)y - 3);
    on.scratch[0] = (uint8_t)sum;
    return 0;
}

static uint32_t shares(const struct variant *with)
{
    uint64_t points;
    return with->shares(on.w, on.h, on.numerators, on.taps, on.n, on.edge, on.length / 8, on.list, on.length / 4, &points);
}

struct line {
    const char *name;
    call *run;
    uint32_t taps, n;
    int edges; /* whether the edge mode counts, so that larger pictures are timed under each */
};
static const struct line lines[] = {
    {"blur n 0 taps 5", blur, 5, 0, 1},
    {"blur n 0 taps 13", blur, 13, 0, 1},
    {"blur n 0 taps 33", blur, 33, 0, 1},
    {"blur n 1 taps 13", blur, 13, 1, 1},
    {"blur n 2 taps 13", blur, 13, 2, 1},
    {"blur n 4 taps 13", blur, 13, 4, 1},
    {"shadow alone n 1 taps 13", shadow, 13, 1, 1},
    {"shadow composited n 1 taps 13", composited, 13, 1, 1},
    {"shift", shift, 1, 0, 0},
    {"shift by half", shift_half, 1, 0, 0},
    {"blur_whole n 0 taps 5", blur_whole, 5, 0, 0},
    {"blur_whole n 0 taps 13", blur_whole, 13, 0, 0},
    {"blur_whole n 2 taps 13", blur_whole, 13, 2, 0},
    {"blur_planes n 0 taps 13", blur_planes, 13, 0, 0},
    {"blur_planes n 2 taps 13", blur_planes, 13, 2, 0},
    {"shift_planes", shift_planes, 1, 0, 0},
    {"shadow_planes n 1 taps 13", shadow_planes, 13, 1, 0},
    {"to_planes", to_planes, 1, 0, 0},
    {"from_planes", from_planes, 1, 0, 0},
    {"check", check, 1, 0, 0},
    {"mend, nothing to mend", mend, 1, 0, 0},
    {"mend, all to mend", mend_all, 1, 0, 0},
    {"rebuild", rebuild, 1, 0, 0},
    {"pam_write", pam_write, 1, 0, 0},
    {"pam_read", pam_read, 1, 0, 0},
    {"area_build", area_build, 1, 0, 0},
    {"sample", sample, 1, 0, 1},
    {"shares n 2 taps 13", shares, 13, 2, 0},
};
static const uint32_t sizes[][2] = {{16, 16}, {64, 64}, {256, 256}, {1024, 1024}, {3, 4096}, {4096, 3}, {4096, 4096}};
enum { LINES = sizeof lines / sizeof *lines, SIZES = sizeof sizes / sizeof *sizes };
static const char *const edges[] = {"Duplicate", "Wrap", "Mirror", "None"};

static double now(void)
{
    struct timespec at;
    clock_gettime(CLOCK_PROCESS_CPUTIME_ID, &at);
    return 1e9 * (double)at.tv_sec + (double)at.tv_nsec;
}

static void *room(size_t bytes)
{
    void *it = aligned_alloc(64, (bytes + 63) / 64 * 64);
    if (!it) exit(3);
    return memset(it, 1, bytes);
}

/* The kernel is not symmetrical, and its numerators sum to 65536. */
static void kernel(uint32_t taps)
{
    uint32_t sum = 0, left = CORBELRUSH_GRID;
    for (uint32_t j = 0; j < taps; j++) sum += 1 + j % 5;
    for (uint32_t j = 0; j < taps; j++) left -= on.numerators[j] = CORBELRUSH_GRID / sum * (1 + j % 5);
    on.numerators[taps / 2] += left;
    for (uint32_t j = 0; j < taps; j++) on.weights[j] = (float)on.numerators[j] / CORBELRUSH_GRID;
    on.taps = taps;
}

/* A picture that passes the check, of any alphas. */
static void sides(uint32_t w, uint32_t h)
{
    uint32_t seed = 1;
    on.w = w, on.h = h, on.length = 4 * (size_t)w * h;
    on.input = room(on.length), on.bytes = room(on.length), on.plain = room(2 * on.length);
    on.scratch = room(on.length + CORBELRUSH_PAM_HEADER), on.copy = room(on.length), on.list = room(4 * on.length);
    for (size_t i = 0; i < on.length; i++) {
        seed = seed * 1664525 + 1013904223;
        on.input[i] = (uint8_t)(seed >> 24);
        if (i % 4 == 3)
            for (size_t k = i - 3; k < i; k++) on.input[k] = (uint8_t)(on.input[k] * on.input[i] / 255);
    }
}

static void drop(void) { free(on.input), free(on.bytes), free(on.plain), free(on.scratch), free(on.copy), free(on.list); }

static void put_back(call *run)
{
    memcpy(on.bytes, on.input, on.length);
    if (run == pam_read) pam_write(&variants[0]); /* the file, where it is read from */
}

/* The nanoseconds of a call, over so many of them. */
static double turn(const struct line *line, const struct variant *with, unsigned times)
{
    put_back(line->run);
    double start = now();
    for (unsigned i = 0; i < times; i++)
        if (line->run(with)) printf("%s is refused\n", line->name), exit(1);
    double took = (now() - start) / times;
    if (memcmp(on.plain, on.bytes, on.length) || memcmp(on.plain + on.length, on.scratch, on.length))
        printf("%s: %s leaves other bytes\n", line->name, with->name), exit(1);
    return took;
}

/* How many calls a turn has; and what they leave on the plain variant. */
static unsigned plainly(const struct line *line)
{
    put_back(line->run);
    double start = now();
    line->run(variants);
    unsigned calls = 1 + (unsigned)(TURN / (now() - start + 1));
    for (unsigned i = 1; i < calls; i++) line->run(variants);
    memcpy(on.plain, on.bytes, on.length);
    memcpy(on.plain + on.length, on.scratch, on.length);
    return calls;
}

static int ascending(const void *a, const void *b)
{
    double x = *(const double *)a, y = *(const double *)b;
    return (x > y) - (x < y);
}

static double *ordered(double *numbers, unsigned count)
{
    qsort(numbers, count, sizeof *numbers, ascending);
    return numbers;
}

static struct {
    double logs, worst;
    unsigned lines, slower;
    char where[100];
} seen[MOST_VARIANTS];

/* What a variant takes of the plain one's time, by the least and by the median. */
static void compared(unsigned which, double least, double median, const char *where)
{
    const char *mark = least > 1.02 && median > 1.02 ? "!" : least > 1.02 || median > 1.02 ? "?" : " ";
    printf(" | %.3f %.3f %s", least, median, mark);
    seen[which].logs += log(least);
    seen[which].lines++;
    seen[which].slower += *mark == '!';
    if (least > seen[which].worst) {
        seen[which].worst = least;
        snprintf(seen[which].where, sizeof seen[which].where, "%s", where);
    }
}

static double cells[LINES][SIZES][MOST_VARIANTS];

static void measure(const struct line *line, const char *where, unsigned present, unsigned rounds)
{
    double times[MOST_VARIANTS][MOST_ROUNDS], paired[MOST_ROUNDS], medians[MOST_VARIANTS];
    unsigned calls = plainly(line);
    for (unsigned round = 0; round < rounds; round++)
        for (unsigned k = 0; k < present; k++) {
            unsigned which = (k + round) % present;
            times[which][round] = turn(line, &variants[which], calls);
        }
    for (unsigned k = 1; k < present; k++) {
        for (unsigned round = 0; round < rounds; round++) paired[round] = times[k][round] / times[0][round];
        medians[k] = ordered(paired, rounds)[rounds / 2];
    }
    double least = *ordered(times[0], rounds), pixels = (double)on.length / 4;
    printf("%-54s | %8.3f %8.3f", where, least / pixels, times[0][rounds / 2] / pixels);
    for (unsigned k = 1; k < present; k++) {
        double *cell = &cells[line - lines][on.size][k];
        compared(k, *ordered(times[k], rounds) / least, medians[k], where);
        if (medians[k] > *cell) *cell = medians[k];
    }
    putchar('\n');
    fflush(stdout);
}

/* A line under each edge mode, where it counts; of small pictures under the first alone. */
static void each_edge(const struct line *line, const char *part, unsigned present, unsigned rounds)
{
    char where[100];
    kernel(line->taps);
    on.n = line->n;
    for (on.edge = 0; on.edge < (line->edges && on.length >= 49152 ? 4 : 1); on.edge++) {
        snprintf(where, sizeof where, "%s, %u by %u%s%s", line->name, on.w, on.h, line->edges ? ", " : "",
                 line->edges ? edges[on.edge] : "");
        if (strstr(where, part)) measure(line, where, present, rounds);
    }
}

static void table(unsigned present)
{
    printf("\n| line |");
    for (size_t s = 0; s < SIZES; s++) printf(" %u × %u |", sizes[s][0], sizes[s][1]);
    printf("\n|---|");
    for (size_t s = 0; s < SIZES; s++) printf("---|");
    for (size_t l = 0; l < LINES; l++) {
        printf("\n| %s |", lines[l].name);
        for (size_t s = 0; s < SIZES; s++) {
            for (unsigned k = 1; k < present; k++) printf(cells[l][s][k] > 0 ? " %.2f" : " ", cells[l][s][k]);
            printf(" |");
        }
    }
    putchar('\n');
}

static unsigned processor_has(void)
{
    __builtin_cpu_init();
    return __builtin_cpu_supports("x86-64-v4") ? 4 : __builtin_cpu_supports("x86-64-v3") ? 3 : 2;
}

int main(int count, char **words)
{
    unsigned rounds = count > 1 ? (unsigned)atoi(words[1]) : 9, largest = count > 2 ? (unsigned)atoi(words[2]) : 4096;
    unsigned present = processor_has();
    if (rounds < 1 || rounds > MOST_ROUNDS) return 2;
    printf("%-54s | plain: ns a pixel", "least and median of the rounds");
    for (unsigned k = 1; k < present; k++) printf(" | %s", variants[k].name);
    putchar('\n');
    for (on.size = 0; on.size < SIZES; on.size++) {
        if (sizes[on.size][0] > largest && sizes[on.size][1] > largest) continue;
        sides(sizes[on.size][0], sizes[on.size][1]);
        for (size_t l = 0; l < LINES; l++) each_edge(&lines[l], count > 3 ? words[3] : "", present, rounds);
        drop();
    }
    for (unsigned k = 1; k < present; k++)
        printf("%s: %u lines, %u slower; geometric mean %.3f, worst %.3f (%s)\n", variants[k].name, seen[k].lines, seen[k].slower,
               exp(seen[k].logs / seen[k].lines), seen[k].worst, seen[k].where);
    table(present);
    return 0;
}
