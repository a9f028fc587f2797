/* Writes a format 0 MIDI file of exactly LENGTH bytes for timing: songs_make KIND LENGTH
   song        what people have: notes on and off with their status, deltas of one and two bytes, pedals, bends, texts, changes of tempo
   notes       note-ons by running status, delta 0: three bytes an event
   pressure    channel pressure by running status, delta 0: two bytes an event, the most events that a file can hold
   metas       empty texts: four bytes each, no event
   sysex       empty F0 events: three bytes each, no event
   tempos      changes of tempo: seven bytes each, no event
   quantities  note-ons by running status with deltas of four bytes
   lengths     empty texts whose delta and length have four bytes each
   chunks      alien chunks of no bytes in front of an empty track
   All but `chunks` start with a pause of some 50 minutes, so that frames are large, and with a text that makes the length come out even. */
#include <stdint.h>
#include <stdio.h>
#include <stdlib.h>
#include <string.h>

static uint8_t file[65536];
static size_t used;

static void put(size_t count, const uint8_t *bytes) {
    memcpy(file + used, bytes, count);
    used += count;
}
#define PUT(...) put(sizeof((uint8_t[]){__VA_ARGS__}), (uint8_t[]){__VA_ARGS__})

static void word(uint32_t x) { PUT(x >> 24, x >> 16, x >> 8, x); }

typedef struct {
    const char *name;
    size_t first, size; // bytes of what stands once in front, and of each piece
} Kind;

static const Kind kinds[] = {{"song", 0, 74}, {"notes", 4, 3}, {"pressure", 3, 2}, {"metas", 0, 4}, {"sysex", 0, 3}, {"tempos", 0, 7},
    {"quantities", 4, 6}, {"lengths", 0, 10}, {"chunks", 0, 8}};

// Notes on and off, a pedal, a bend, a program change, a volume, a text and a change of tempo; each status is written out but one.
static void bar(uint8_t k) {
    uint8_t key = 40 + k % 48;
    PUT(0x00, 0x90, key, 0x50, 0x18, 0x80, key, 0x40, 0x00, 0x91, key + 4, 0x48, 0x00, key + 7, 0x48);
    PUT(0x30, 0x81, key + 4, 0x40, 0x00, 0x81, key + 7, 0x40, 0x00, 0xb0, 0x40, 0x7f, 0x00, 0xe0, 0x00, 0x40);
    PUT(0x00, 0xff, 0x51, 0x03, 0x07, 0xa0 + k % 16, 0x00, 0x00, 0xc1, k % 128, 0x00, 0xff, 0x01, 0x04, 'b', 'e', 'l', 'l');
    PUT(0x00, 0x92, key, 0x60, 0x81, 0x10, 0x82, key, 0x40, 0x00, 0xb0, 0x40, 0x00);
    PUT(0x00, 0x90, key + 12, 0x30, 0x60, 0x80, key + 12, 0x40, 0x00, 0xb0, 0x07, k % 128);
}

static void piece(const char *name, size_t k) {
    if (!strcmp(name, "song")) bar(k);
    if (!strcmp(name, "notes")) PUT(0x00, 0x20 + k % 64, 0x01 + k % 127);
    if (!strcmp(name, "pressure")) PUT(0x00, k % 128);
    if (!strcmp(name, "metas")) PUT(0x00, 0xff, 0x01, 0x00);
    if (!strcmp(name, "sysex")) PUT(0x00, 0xf0, 0x00);
    if (!strcmp(name, "tempos")) PUT(0x00, 0xff, 0x51, 0x03, 0x07, 0xa1, 0x20);
    if (!strcmp(name, "quantities")) PUT(0x80, 0x80, 0x80, 0x01, 0x20 + k % 64, 0x40);
    if (!strcmp(name, "lengths")) PUT(0x80, 0x80, 0x80, 0x00, 0xff, 0x01, 0x80, 0x80, 0x80, 0x00);
}

static void track(const Kind *kind, size_t length) {
    const size_t pause = 7, ends = 4 + 4; // an empty text and the end of track
    size_t room = length - used - 8 - pause - ends - kind->first;
    PUT('M', 'T', 'r', 'k');
    word(length - used - 4);
    PUT(0xaa, 0xde, 0xa8, 0x00, 0xff, 0x01, 0x00); // 89,625,600 ticks of 1/15,000 beat: 2,987 seconds
    PUT(0x00, 0xff, 0x01, room % kind->size);
    used += room % kind->size;
    if (kind->first) put(kind->first, (uint8_t[]){0x00, kind->first == 4 ? 0x90 : 0xd0, 0x3c, 0x40});
    for (size_t k = 0; k < room / kind->size; k++) piece(kind->name, k);
    PUT(0x00, 0xff, 0x2f, 0x00);
}

static void chunks(size_t length) {
    size_t room = length - used - 8 - 4 - 4;
    for (size_t k = 0; k < room / 8; k++) PUT('X', 'F', 'I', 'H', 0, 0, 0, 0);
    PUT('M', 'T', 'r', 'k');
    word(length - used - 4);
    PUT(0x00, 0xff, 0x01, room % 8);
    used += room % 8;
    PUT(0x00, 0xff, 0x2f, 0x00);
}

int main(int argc, char **argv) {
    size_t length = argc == 3 ? strtoul(argv[2], NULL, 10) : 0;
    const Kind *kind = NULL;
    for (size_t k = 0; argc == 3 && k < sizeof kinds / sizeof *kinds; k++)
        if (!strcmp(argv[1], kinds[k].name)) kind = &kinds[k];
    if (!kind || length < 256 || length > sizeof file) return fprintf(stderr, "songs_make KIND LENGTH, 256 to 65536\n"), 2;
    PUT('M', 'T', 'h', 'd', 0, 0, 0, 6, 0, 0, 0, 1, 0x3a, 0x98);
    if (!strcmp(kind->name, "chunks")) chunks(length);
    else track(kind, length);
    if (used != length) return fprintf(stderr, "songs_make: %zu bytes came out, not %zu\n", used, length), 1;
    return fwrite(file, 1, length, stdout) != length;
}
