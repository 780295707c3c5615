/* Image files for other programs: `pam-peers W H SEED` writes the PAM file of a picture that is made of a seed, no channel
 * of it above its alpha; `pam-peers` reads a PAM file, takes it inward and outward again, and writes it. */
#include <stdint.h>
#include <stdio.h>
#include <stdlib.h>

#include "corbelrush.h"

enum { ROOM = 1 << 22 };
static uint8_t picture[ROOM], file[ROOM];

static uint32_t next(uint64_t *state) {
    *state = *state * 6364136223846793005u + 1442695040888963407u;
    return (uint32_t)(*state >> 33);
}

static uint32_t put(size_t length, uint32_t w, uint32_t h) {
    uint64_t written, place;
    uint32_t refused = corbelrush_pam_write(picture, length, w, h, file, ROOM, &written, &place);
    if (refused == 0) fwrite(file, 1, written, stdout);
    return refused;
}

int main(int count, char **words) {
    if (count == 4) {
        uint32_t w = (uint32_t)atoi(words[1]), h = (uint32_t)atoi(words[2]);
        uint64_t state = (uint64_t)atoi(words[3]);
        for (size_t i = 0; i < (size_t)w * h; i++) {
            uint32_t kind = next(&state) % 4, alpha = kind == 0 ? 0 : kind == 1 ? 255 : next(&state) % 256;
            for (size_t c = 0; c < 3; c++) picture[4 * i + c] = (uint8_t)(next(&state) % (alpha + 1));
            picture[4 * i + 3] = (uint8_t)alpha;
        }
        return (int)put((size_t)w * h * 4, w, h);
    }
    size_t length = fread(file, 1, ROOM, stdin);
    uint32_t w, h;
    uint64_t written;
    uint32_t refused = corbelrush_pam_read(file, length, picture, ROOM, &w, &h, &written);
    return (int)(refused ? refused : put((size_t)written, w, h));
}
