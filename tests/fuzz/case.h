/*
 * One case of the fuzz driver: what a call is given, what the rules say that it leaves, and the table of all functions.
 * Buffers have fixed names, whatever a function calls its own.
 */
#ifndef FUZZ_CASE_H
#define FUZZ_CASE_H

#include "corbelrush.h"

/* MAIN: picture, planes, plate or file. SECOND: scratch, or another buffer with content. THIRD: copy. KERNEL: weights,
 * numerators or a table of kernels. LIST: changes, points, a table of sums or recipes. */
enum { MAIN, SECOND, THIRD, KERNEL, LIST, BUFFERS };
enum { OUTS = 4, SIDE = 16384, ROOM = 3 * 65536, FUNCTIONS_MOST = 28 };

typedef struct {
    uint32_t w, h, n, edge, composite;
    float dx, dy, strength, colour[4];
    uint32_t x, y, wide, high, version, unit, index;
    uint16_t sheet;
    uint8_t old_alpha, new_alpha;
    uint64_t used, place, in_place;
    size_t count[BUFFERS]; /* elements that are lent */
    uint64_t out[OUTS];    /* what the rules answer beside the number */
} Case;

typedef union {
    uint8_t bytes[ROOM];
    float floats[ROOM / 4];
    uint32_t words[ROOM / 4];
    corbelrush_change changes[ROOM / 8];
    corbelrush_point points[ROOM / 16];
    corbelrush_recipe recipes[ROOM / 52];
} Content;

/* What each buffer holds before the call; and, once a rule has run, what it must hold afterwards. */
extern Content before[BUFFERS], after[BUFFERS];

typedef struct {
    const char *name;
    void (*draw)(Case *c);
    uint32_t (*rule)(Case *c);
    uint32_t (*call)(const Case *c, void *const lent[BUFFERS], void *const out[OUTS]);
    uint8_t element[BUFFERS]; /* bytes of an element, 0 where the function takes no such buffer */
    uint8_t written[BUFFERS]; /* 1 where the function may write */
    uint8_t out_size[OUTS];   /* bytes of each answered number */
    uint32_t answers;         /* bit i: the function can return i; every one must come up in a long run */
} Function;

extern const Function functions[];
extern const unsigned function_count;

#endif
