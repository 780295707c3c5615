/* Rules 10, 15 and 16: plates read, worked on and written, and image files. */
#include <stdio.h>
#include <string.h>

#include "rules.h"

enum { HEAD = 4, PICTURES = 64 };

static struct {
    uint32_t count, version, entry; /* bytes of an entry */
    struct {
        uint32_t w, h, unit, sheet;
        uint64_t offset, length;
    } of[PICTURES];
} plate;

static uint32_t number_at(const uint8_t *bytes, size_t at, int size)
{
    uint32_t value = 0;
    for (int i = size; i-- > 0;) value = value << 8 | bytes[at + i];
    return value;
}

static void number_to(uint8_t *bytes, size_t at, int size, uint64_t value)
{
    for (int i = 0; i < size; i++) bytes[at + i] = (uint8_t)(value >> 8 * i);
}

/* Rules 10.2 and 10.3 of entry i, which must have its picture from `offset` on. */
static int entry_read(const uint8_t *bytes, uint32_t i, uint64_t offset)
{
    size_t at = HEAD + (size_t)plate.entry * i;
    uint32_t largest = plate.version == 3 ? SIDE : 4096;
    plate.of[i].w = number_at(bytes, at, 2);
    plate.of[i].h = number_at(bytes, at + 2, 2);
    plate.of[i].offset = number_at(bytes, at + 4, 4);
    plate.of[i].length = number_at(bytes, at + 8, 4);
    plate.of[i].unit = plate.version == 1 ? 0 : number_at(bytes, at + 12, 2);
    plate.of[i].sheet = plate.version == 1 ? 0 : number_at(bytes, at + 14, 2);
    if (plate.of[i].w == 0 || plate.of[i].w > largest || plate.of[i].h == 0 || plate.of[i].h > largest) return 0;
    if (plate.of[i].length != 4 * (uint64_t)plate.of[i].w * plate.of[i].h || plate.of[i].offset != offset) return 0;
    return plate.version == 1 || plate.of[i].unit == 1 || plate.of[i].unit == 2;
}

/* Rules 10.1 to 10.4: whether these bytes are a plate, which is then in `plate`. */
static int plate_read(const uint8_t *bytes, size_t length)
{
    if (length < HEAD) return 0;
    plate.version = number_at(bytes, 0, 2);
    plate.count = number_at(bytes, 2, 2);
    plate.entry = plate.version == 1 ? 12 : 16;
    if (plate.version < 1 || plate.version > 3 || plate.count > PICTURES) return 0;
    if (length > (plate.version == 3 ? 16777216u : 16384u)) return 0;
    uint64_t offset = HEAD + (uint64_t)plate.entry * plate.count;
    if (offset > length) return 0;
    for (uint32_t i = 0; i < plate.count; i++) {
        if (!entry_read(bytes, i, offset)) return 0;
        offset += plate.of[i].length;
    }
    return offset == length;
}

uint32_t rule_plate_picture(Case *c)
{
    if (!plate_read(after[MAIN].bytes, c->count[MAIN])) return 10;
    if (c->index >= plate.count) return 12;
    c->out[0] = plate.of[c->index].w;
    c->out[1] = plate.of[c->index].h;
    c->out[2] = plate.of[c->index].offset;
    c->out[3] = plate.of[c->index].length;
    return 0;
}

uint32_t rule_plate_label(Case *c)
{
    if (!plate_read(after[MAIN].bytes, c->count[MAIN])) return 10;
    if (c->index >= plate.count) return 12;
    c->out[0] = plate.of[c->index].unit;
    c->out[1] = plate.of[c->index].sheet;
    return 0;
}

uint32_t rule_plate_job(Case *c)
{
    static const float weights[] = {0.25f, 0.5f, 0.25f};
    const Kernel kernel = {.weights = weights, .taps = 3, .edge = CORBELRUSH_DUPLICATE};
    uint64_t longest = 0;
    if (!plate_read(after[MAIN].bytes, c->count[MAIN])) return 10;
    for (uint32_t i = 0; i < plate.count; i++)
        if (plate.of[i].length > longest) longest = plate.of[i].length;
    if (c->count[SECOND] < longest) return 3;
    for (uint32_t i = 0; i < plate.count; i++)
        blur_picture(after[MAIN].bytes + plate.of[i].offset, plate.of[i].w, plate.of[i].h, &kernel, 1);
    memset(after[SECOND].bytes, 0, longest);
    return 0;
}

uint32_t rule_plate_start(Case *c)
{
    if (c->version < 1 || c->version > 3) return 10;
    if (c->count[MAIN] < HEAD) return 13;
    number_to(after[MAIN].bytes, 0, 2, c->version);
    number_to(after[MAIN].bytes, 2, 2, 0);
    c->out[0] = HEAD;
    return 0;
}

/* Rule 15.3: the plate in `plate`, which has one picture more by now, written anew from its pictures' old bytes. */
static void plate_written(uint8_t *bytes, const uint8_t *old, const uint8_t *picture)
{
    uint64_t offset = HEAD + (uint64_t)plate.entry * plate.count;
    number_to(bytes, 0, 2, plate.version);
    number_to(bytes, 2, 2, plate.count);
    for (uint32_t i = 0; i < plate.count; i++) {
        size_t at = HEAD + (size_t)plate.entry * i;
        const uint8_t *body = i + 1 < plate.count ? old + plate.of[i].offset : picture;
        number_to(bytes, at, 2, plate.of[i].w);
        number_to(bytes, at + 2, 2, plate.of[i].h);
        number_to(bytes, at + 4, 4, offset);
        number_to(bytes, at + 8, 4, plate.of[i].length);
        if (plate.version != 1) number_to(bytes, at + 12, 2, plate.of[i].unit);
        if (plate.version != 1) number_to(bytes, at + 14, 2, plate.of[i].sheet);
        memcpy(bytes + offset, body, plate.of[i].length);
        offset += plate.of[i].length;
    }
}

uint32_t rule_plate_add(Case *c)
{
    static uint8_t old[ROOM];
    uint64_t length = bytes_of(c);
    if (c->used > c->count[MAIN] || !plate_read(after[MAIN].bytes, c->used)) return 10;
    if (plate.version != 1 && c->unit != 1 && c->unit != 2) return 10;
    if (sides_refused(c)) return 1;
    if (c->count[SECOND] != length) return 2;
    uint64_t used = c->used + plate.entry + length;
    if (plate.count == PICTURES || used > (plate.version == 3 ? 16777216u : 16384u) || used > c->count[MAIN]) return 13;
    memcpy(old, after[MAIN].bytes, c->used);
    plate.of[plate.count].w = c->w;
    plate.of[plate.count].h = c->h;
    plate.of[plate.count].unit = c->unit;
    plate.of[plate.count].sheet = c->sheet;
    plate.of[plate.count++].length = length;
    plate_written(after[MAIN].bytes, old, after[SECOND].bytes);
    c->out[0] = used;
    return 0;
}

/* Rule 16.1: the header of these sides, and its length. */
static int header_of(char text[128], unsigned w, unsigned h)
{
    return snprintf(text, 128, "P7\nWIDTH %u\nHEIGHT %u\nDEPTH 4\nMAXVAL 255\nTUPLTYPE RGB_ALPHA\nENDHDR\n", w, h);
}

/* The decimal number that stands after a word in the file, and may be wrong: the whole header is compared afterwards. */
static unsigned number_after(const char *file, const char *word)
{
    unsigned value = 0;
    const char *found = strstr(file, word);
    if (!found) return 0;
    for (const char *digit = found + strlen(word); *digit >= '0' && *digit <= '9' && value < 1000000; digit++)
        value = 10 * value + (unsigned)(*digit - '0');
    return value;
}

uint32_t rule_pam_read(Case *c)
{
    char start[128] = "", header[128];
    const uint8_t *file = after[MAIN].bytes;
    memcpy(start, file, c->count[MAIN] < 127 ? c->count[MAIN] : 127);
    unsigned w = number_after(start, "P7\nWIDTH "), h = number_after(start, "\nHEIGHT ");
    int head = header_of(header, w, h);
    uint64_t length = 4 * (uint64_t)w * h;
    if (w == 0 || w > SIDE || h == 0 || h > SIDE || c->count[MAIN] != (uint64_t)head + length) return 15;
    if (memcmp(file, header, (size_t)head) != 0) return 15;
    if (c->count[SECOND] < length) return 3;
    for (uint64_t i = 0; i < length; i++) {
        uint32_t channel = file[head + i], alpha = file[head + (i | 3)];
        after[SECOND].bytes[i] = (uint8_t)(i % 4 == 3 ? channel : (channel * alpha + 127) / 255);
    }
    c->out[0] = w;
    c->out[1] = h;
    c->out[2] = length;
    return 0;
}

uint32_t rule_pam_write(Case *c)
{
    char header[128];
    const uint8_t *picture = after[MAIN].bytes;
    uint32_t refused = picture_refused(c);
    if (refused) return refused;
    for (uint64_t i = 0; i < bytes_of(c) / 4; i++)
        if (exceeds(picture + 4 * i)) return c->out[1] = i, 16;
    int head = header_of(header, c->w, c->h);
    if (c->count[SECOND] < head + bytes_of(c)) return 3;
    memcpy(after[SECOND].bytes, header, (size_t)head);
    for (uint64_t i = 0; i < bytes_of(c); i++) {
        uint32_t channel = picture[i], alpha = picture[i | 3];
        after[SECOND].bytes[head + i] = (uint8_t)(i % 4 == 3 ? channel : alpha == 0 ? 0 : (255 * channel + alpha / 2) / alpha);
    }
    c->out[0] = (uint64_t)head + bytes_of(c);
    return 0;
}
