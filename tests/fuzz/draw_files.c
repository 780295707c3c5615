/* Inputs of the functions for plates and image files: whole files, and files with something wrong. */
#include <stdio.h>
#include <string.h>

#include "draw.h"
#include "random.h"

static void put(uint8_t *bytes, size_t at, int size, uint64_t value)
{
    for (int i = 0; i < size; i++) bytes[at + i] = (uint8_t)(value >> 8 * i);
}

/* A plate of this version and count in MAIN, of small pictures; its length. */
static size_t draw_whole_plate(uint32_t version, uint32_t count)
{
    uint8_t *bytes = before[MAIN].bytes;
    uint32_t entry = version == 1 ? 12 : 16, side = count > 20 ? 3 : 9;
    size_t offset = 4 + (size_t)entry * count;
    put(bytes, 0, 2, version);
    put(bytes, 2, 2, count);
    for (uint32_t i = 0; i < count; i++) {
        uint32_t w = 1 + below(side), h = 1 + below(side), length;
        if (count < 3 && chance(30)) w = PICK(4095, 4096, 4097, SIDE), h = 1;
        length = 4 * w * h;
        put(bytes, 4 + entry * i, 2, w);
        put(bytes, 6 + entry * i, 2, h);
        put(bytes, 8 + entry * i, 4, offset);
        put(bytes, 12 + entry * i, 4, length);
        if (version != 1) put(bytes, 16 + entry * i, 2, 1 + below(2));
        if (version != 1) put(bytes, 18 + entry * i, 2, below(65536));
        random_bytes(bytes + offset, length);
        offset += length;
    }
    return offset;
}

/* One byte of the table or one of the length changed. */
static void spoil_plate(Case *c, size_t table)
{
    uint8_t *bytes = before[MAIN].bytes;
    if (chance(3)) {
        size_t old = c->count[MAIN];
        c->count[MAIN] = chance(2) ? below((uint32_t)old + 1) : old + 1 + below(4);
        if (old < c->count[MAIN]) random_bytes(bytes + old, c->count[MAIN] - old);
    } else if (chance(3)) {
        bytes[below(4)] = (uint8_t)PICK(0, 1, 2, 3, 4, 64, 65, 255);
    } else {
        bytes[below((uint32_t)table)] ^= (uint8_t)(1u << below(8));
    }
}

static uint32_t draw_plate_bytes(Case *c)
{
    uint32_t version = 1 + below(3), count = chance(10) ? 60 + below(5) : below(5);
    c->count[MAIN] = draw_whole_plate(version, count);
    return count;
}

void draw_plate(Case *c)
{
    uint32_t count = draw_plate_bytes(c);
    size_t room = c->count[MAIN];
    if (chance(4)) spoil_plate(c, 4 + 16 * (size_t)count < room ? 4 + 16 * (size_t)count : room);
    c->index = chance(4) ? PICK(count, count + 1, 64, UINT32_MAX) : below(count + !count);
    draw_room(c, SECOND, chance(4) ? below((uint32_t)room) : room, 1);
}

void draw_plate_start(Case *c)
{
    c->version = chance(4) ? PICK(0, 4, 256, 257, 65537, UINT32_MAX) : 1 + below(3);
    draw_room(c, MAIN, chance(4) ? below(4) : 4, 1);
}

void draw_plate_add(Case *c)
{
    uint32_t count = draw_plate_bytes(c);
    size_t used = c->count[MAIN], table = 4 + 12 * (size_t)count;
    draw_sides(c, 12);
    if (chance(30)) c->w = PICK(4095, 4096, 4097, SIDE), c->h = 1;
    c->count[SECOND] = 4 * (size_t)c->w * c->h;
    random_bytes(before[SECOND].bytes, c->count[SECOND]);
    size_t whole = used + 16 + c->count[SECOND], free = chance(5) ? below((uint32_t)(whole - used) + 1) : whole - used + below(20);
    c->used = used;
    c->count[MAIN] = used + free <= ROOM ? used + free : used;
    random_bytes(before[MAIN].bytes + used, c->count[MAIN] - used);
    if (chance(8)) before[MAIN].bytes[below((uint32_t)table)] ^= (uint8_t)(1u << below(8));
    if (chance(12)) c->used = chance(2) ? c->count[MAIN] + 1 + below(2) * (1ull << 32) : below((uint32_t)used);
    if (chance(30)) c->used = UINT64_MAX;
    c->unit = chance(6) ? PICK(0, 3, 65537, UINT32_MAX) : 1 + below(2);
    c->sheet = (uint16_t)below(65536);
    if (chance(8)) c->count[SECOND] = below((uint32_t)c->count[SECOND] + 1);
    spoil(c, SIDES);
}

/* A file's header, sometimes in another spelling; its length. */
static size_t draw_header(const Case *c)
{
    static const char *const spellings[] = {
        "P7\nWIDTH %u\nHEIGHT %u\nDEPTH 4\nMAXVAL 255\nTUPLTYPE RGB_ALPHA\nENDHDR\n",
        "P7\nWIDTH 0%u\nHEIGHT %u\nDEPTH 4\nMAXVAL 255\nTUPLTYPE RGB_ALPHA\nENDHDR\n",
        "P7\nWIDTH %u \nHEIGHT %u\nDEPTH 4\nMAXVAL 255\nTUPLTYPE RGB_ALPHA\nENDHDR\n",
        "P7\nHEIGHT %u\nWIDTH %u\nDEPTH 4\nMAXVAL 255\nTUPLTYPE RGB_ALPHA\nENDHDR\n",
        "P7\nWIDTH +%u\nHEIGHT %u\nDEPTH 4\nMAXVAL 255\nTUPLTYPE RGB_ALPHA\nENDHDR\n",
        "P7\n#\nWIDTH %u\nHEIGHT %u\nDEPTH 4\nMAXVAL 255\nTUPLTYPE RGB_ALPHA\nENDHDR\n",
        "P7\nWIDTH 4294967296%u\nHEIGHT %u\nDEPTH 4\nMAXVAL 255\nTUPLTYPE RGB_ALPHA\nENDHDR\n"};
    const char *spelling = spellings[chance(10) ? 1 + below(6) : 0];
    return (size_t)snprintf((char *)before[MAIN].bytes, 128, spelling, (unsigned)c->w, (unsigned)c->h);
}

void draw_pam_read(Case *c)
{
    draw_sides(c, 30);
    size_t body = 4 * (size_t)c->w * c->h, head;
    if (chance(15)) spoil(c, SIDES);
    head = draw_header(c);
    random_bytes(before[MAIN].bytes + head, body + 8);
    c->count[MAIN] = head + body;
    if (chance(12)) before[MAIN].bytes[below((uint32_t)head)] ^= (uint8_t)(1u << below(8));
    if (chance(12)) c->count[MAIN] = chance(2) ? c->count[MAIN] + 1 + below(4) : below((uint32_t)c->count[MAIN]);
    draw_room(c, SECOND, chance(8) ? below((uint32_t)body) : body, 1);
}

void draw_pam_write(Case *c)
{
    draw_picture(c);
    for (size_t i = 0; i < c->count[MAIN]; i++) {
        uint8_t *channel = &before[MAIN].bytes[i], alpha = before[MAIN].bytes[i | 3];
        if (*channel > alpha && !chance(2000)) *channel = alpha;
    }
    draw_room(c, SECOND, c->count[MAIN] + 73 - below(chance(4) ? 20 : 6), 1);
    spoil(c, SIDES | LENGTH | SECOND_SHORT);
}
