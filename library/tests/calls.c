/* Calls the library as a careless host would: no memory at all, states of random bytes, files of random bytes, outputs of any
 * length. Lent memory ends where a page ends behind which nothing may be read or written, so that a step too far is a crash.
 *
 *     calls BANK.sf2 SONG.mid STATES
 */
#define _DEFAULT_SOURCE
#include "thularek.h"
#include <stdio.h>
#include <stdlib.h>
#include <string.h>
#include <sys/mman.h>

#define CHECK(fact) ((fact) ? (void)checks++ : failed(#fact, __LINE__))

static unsigned long checks;

static void failed(const char *fact, int line) {
    fprintf(stderr, "calls: line %d: %s is not so, after %lu checks\n", line, fact, checks);
    exit(1);
}

/* ---- Numbers by chance (xorshift), and memory */

static uint64_t chance_at = 0x9e3779b97f4a7c15u;

static uint32_t chance(void) {
    chance_at ^= chance_at << 13;
    chance_at ^= chance_at >> 7;
    chance_at ^= chance_at << 17;
    return (uint32_t)(chance_at >> 16);
}

/* Mostly below the limit, now and then any number. */
static uint32_t chance_below(uint32_t limit) { return chance() % 8 ? chance() % limit : chance(); }

static void scatter(void *memory, size_t size) {
    for (size_t i = 0; i < size; i++) ((uint8_t *)memory)[i] = (uint8_t)chance();
}

/* Memory of so many bytes, behind which a page begins that nobody may touch. */
static void *guarded(size_t size) {
    size_t page = 65536, room = (size + page - 1) / page * page;
    char *memory = mmap(NULL, room + page, PROT_READ | PROT_WRITE, MAP_PRIVATE | MAP_ANONYMOUS, -1, 0);
    if (memory == MAP_FAILED || mprotect(memory + room, page, PROT_NONE)) failed("there is memory", __LINE__);
    return memory + room - size;
}

static size_t length_of(FILE *file) {
    fseek(file, 0, SEEK_END);
    size_t length = (size_t)ftell(file);
    rewind(file);
    return length;
}

static uint8_t *file_of(const char *name, size_t *length) {
    FILE *file = fopen(name, "rb");
    if (!file) failed("the file is there", __LINE__);
    *length = length_of(file);
    uint8_t *bytes = guarded(*length);
    CHECK(fread(bytes, 1, *length, file) == *length);
    fclose(file);
    return bytes;
}

/* ---- What is lent */

typedef struct lent {
    uint8_t *bank, *song;
    int16_t *ram, *rom;
    float *out;
    int32_t *sums; /* as long as `out` */
    size_t bank_length, song_length, ram_length, rom_length, out_length;
} lent;

static lent from_files(const char *bank_name, const char *song_name) {
    lent it = {0};
    size_t length, bank, samples, samples_size, place;
    uint8_t *file = file_of(bank_name, &length);
    CHECK(thularek_font(file, length, &bank, &it.bank_length, &samples, &samples_size, &place) == THULAREK_DONE);
    it.bank = memcpy(guarded(it.bank_length), file + bank, it.bank_length);
    it.ram_length = samples_size / 2;
    it.ram = memcpy(guarded(2 * it.ram_length), file + samples, 2 * it.ram_length);
    it.rom_length = 1000;
    it.rom = guarded(2 * it.rom_length);
    it.song = file_of(song_name, &it.song_length);
    it.out_length = 8192;
    it.out = guarded(it.out_length * sizeof(float));
    it.sums = guarded(it.out_length * sizeof(int32_t));
    CHECK(thularek_admit(it.bank, it.bank_length) == THULAREK_DONE);
    return it;
}

/* ---- Every call on one state */

static int is_step(uint32_t which) { return which % 50 && which % 8 == 1; }

static uint32_t act(thularek *s, const lent *l, uint32_t which) {
    uint8_t channel = (uint8_t)chance_below(16), first = (uint8_t)chance_below(128), second = (uint8_t)chance_below(128);
    uint32_t to = thularek_clock(s) + chance_below(600);
    if (which % 50 == 0) return thularek_init(s);
    if (is_step(which))
        return thularek_song_step(s, l->song, l->song_length, l->bank, l->bank_length, l->ram, l->ram_length, l->rom,
                                  l->rom_length);
    switch (which % 10) {
    case 0: return thularek_note_off(s, channel, first);
    case 1: return thularek_control_change(s, channel, first, second);
    case 2: return thularek_program_change(s, channel, first);
    case 3: return thularek_pitch_bend(s, channel, (uint16_t)chance_below(16384));
    case 4: return thularek_song_start(s, l->song, l->song_length);
    case 5: return thularek_song_stop(s);
    case 6: return thularek_render(s, l->ram, l->ram_length, l->rom, l->rom_length, l->out, l->out_length, to);
    case 7:
        return thularek_song_render(s, l->song, l->song_length, l->bank, l->bank_length, l->ram, l->ram_length, l->rom,
                                    l->rom_length, l->out, l->out_length, to);
    case 8: return thularek_sums(s, l->ram, l->ram_length, l->rom, l->rom_length, l->sums, l->out_length, to);
    default:
        return thularek_note_on(s, l->bank, l->bank_length, l->ram, l->ram_length, l->rom, l->rom_length, channel, first,
                                second);
    }
}

/* What is asked of a song's next event, and of a channel. */
static void ask_song(const thularek *s) {
    uint32_t most = chance(), gap = thularek_song_gap(s, most);
    uint8_t channel = (uint8_t)chance_below(16);
    uint32_t program = thularek_channel_program(s, channel), bank = thularek_channel_bank(s, channel);
    CHECK(gap <= most);
    CHECK(!thularek_song_is_over(s) || (gap == most && thularek_song_next(s) == 0 && thularek_song_frame(s) == 0));
    CHECK(thularek_song_next(s) <= 0xffffff);
    CHECK(channel < THULAREK_CHANNELS ? program <= 255 && bank <= 255 : program == 65535 && bank == 65535);
    CHECK(channel != 9 || bank == 128);
}

static void ask(const thularek *s) {
    thularek before = *s;
    uint32_t last[4]; /* number, count, refused and place of the last call */
    uint8_t slot = (uint8_t)chance();
    memcpy(last, s, sizeof last);
    uint32_t stage = thularek_panel_stage(s, slot), voices = thularek_voice_count(s);
    float level = thularek_panel_level(s, slot);
    CHECK(stage <= THULAREK_NO_SLOT && (stage == THULAREK_NO_SLOT) == (slot >= THULAREK_VOICES));
    CHECK(level >= 0 && level <= 1);
    CHECK(voices <= THULAREK_VOICES && thularek_held_count(s) <= voices);
    CHECK(thularek_is_silent(s) == (voices == 0));
    CHECK(thularek_song_is_over(s) <= 1);
    ask_song(s);
    CHECK(thularek_count(s) == last[1] && thularek_refused(s) == last[2] && thularek_place(s) == last[3]);
    CHECK(memcmp(&before, s, sizeof before) == 0);
}

/* Where the numbers of a state lie, as `tools/header --layout` has it. Between them are bytes that mean nothing. */
static const struct { uint16_t at, size; } numbers[] = {
#include "layout.inc"
};

/* A song's numbers: those of its cursor and of its next event, when it began, and whether it has ended. They are the last ones. */
enum { SONG = 12 };

/* Whether all numbers are the same, but for so many at the front and at the back, and the room behind them too. */
static int same(const thularek *one, const thularek *other, size_t but, size_t back) {
    size_t count = sizeof numbers / sizeof *numbers - back, i = but;
    const char *a = (const char *)one, *b = (const char *)other;
    while (i < count && !memcmp(a + numbers[i].at, b + numbers[i].at, numbers[i].size)) i++;
    return i == count && !memcmp(a + THULAREK_STATE_USED, b + THULAREK_STATE_USED, sizeof *one - THULAREK_STATE_USED);
}

/* One call by chance on a state and on a copy of it: both get the same number, which is the first in the state, and are the same
 * after it. A refusal changes the last call's four numbers alone; after a refused step the song is behind its event, too. */
static void act_twice(thularek *s, thularek *copy, const lent *l, int settled) {
    thularek before = *s;
    uint32_t which = chance(), first;
    uint64_t drawn = chance_at;
    uint32_t number = act(s, l, which);
    chance_at = drawn;
    CHECK(act(copy, l, which) == number);
    CHECK(number <= THULAREK_SONG_TOO_LATE);
    CHECK(memcpy(&first, s, sizeof first) && first == number);
    CHECK(same(s, copy, 0, 0));
    CHECK(number == THULAREK_DONE || !settled || same(s, &before, 4, is_step(which) ? SONG : 0));
    CHECK(!is_step(which) || thularek_count(s) == !thularek_song_is_over(&before));
    CHECK(!is_step(which) || thularek_refused(s) == (number != THULAREK_DONE));
}

/* Each state goes through calls by chance: any bytes, a fresh one with some bytes changed, or a fresh one. The first call settles
 * what stood there in an unusual way, a flag of 7 as an example. */
static void any_state(const lent *l, uint32_t states) {
    thularek *s = guarded(sizeof *s), *copy = guarded(sizeof *copy);
    for (uint32_t i = 0; i < states; i++) {
        if (i % 2) thularek_init(s);
        if (i % 2 == 0) scatter(s, sizeof *s);
        for (uint32_t k = i % 4 == 1 ? chance() % 20 : 0; k > 0; k--) ((uint8_t *)s)[chance() % THULAREK_STATE_USED] = (uint8_t)chance();
        *copy = *s;
        for (int call = 0; call < 10; call++) {
            act_twice(s, copy, l, call > 0);
            ask(s);
        }
    }
}

/* The bytes behind what this version uses are never written. */
static void room_is_left(const lent *l) {
    thularek state;
    memset(&state, 0xa5, sizeof state);
    thularek_init(&state);
    for (uint32_t which = 0; which < 1000; which++) act(&state, l, which);
    for (size_t i = THULAREK_STATE_USED; i < sizeof state; i++) CHECK(((uint8_t *)&state)[i] == 0xa5);
}

/* ---- No memory at all */

static void nothing_lent(void) {
    lent none = {0};
    thularek state;
    thularek_init(&state);
    for (uint32_t which = 0; which < 1000; which++) act(&state, &none, which);
    CHECK(thularek_init(&state) == THULAREK_DONE);
    CHECK(thularek_note_on(&state, NULL, 0, NULL, 0, NULL, 0, 0, 60, 100) == THULAREK_BANK_NOT_ADMITTED);
    CHECK(thularek_note_on(&state, NULL, 0, NULL, 0, NULL, 0, 0, 60, 0) == THULAREK_DONE);
    CHECK(thularek_render(&state, NULL, 0, NULL, 0, NULL, 0, 0) == THULAREK_DONE);
    CHECK(thularek_render(&state, NULL, 0, NULL, 0, NULL, 0, 1) == THULAREK_OUTPUT_TOO_SHORT);
    CHECK(thularek_sums(&state, NULL, 0, NULL, 0, NULL, 0, 0) == THULAREK_DONE);
    CHECK(thularek_sums(&state, NULL, 0, NULL, 0, NULL, 0, 1) == THULAREK_OUTPUT_TOO_SHORT);
    CHECK(thularek_song_start(&state, NULL, 0) == THULAREK_SONG_MALFORMED);
    CHECK(thularek_song_render(&state, NULL, 0, NULL, 0, NULL, 0, NULL, 0, NULL, 0, 0) == THULAREK_DONE);
    CHECK(thularek_song_step(&state, NULL, 0, NULL, 0, NULL, 0, NULL, 0) == THULAREK_DONE);
    CHECK(thularek_count(&state) == 0);
}

static void no_files(void) {
    size_t a = 1, b = 1, c = 1, d = 1, place = 1;
    uint32_t at = 1, frames = 1, held = 1, loudest = 1;
    uint16_t program = 1, bank = 1;
    CHECK(thularek_font(NULL, 0, &a, &b, &c, &d, &place) == THULAREK_FONT_NO_FORM && !a && !b && !c && !d && !place);
    CHECK(thularek_admit(NULL, 0) == THULAREK_BANK_NOT_ADMITTED);
    CHECK(thularek_bank_fault(NULL, 0, &place) == THULAREK_BANK_CHUNK - 20 && place == 0);
    CHECK(thularek_list(NULL, 0, 0, &program, &bank, &a) == 1 && !program && !bank && !a);
    uint32_t zones = 1;
    uint8_t low = 1, high = 1;
    CHECK(thularek_preset(NULL, 0, 0, &a, &zones, &low, &high) == 1 && !a && !zones && !low && !high);
    CHECK(thularek_past_memory(NULL, 0, 0, 0, &place) == THULAREK_DONE && place == 0);
    CHECK(thularek_song_test(NULL, 0, &at) == THULAREK_SONG_MALFORMED && at == 0);
    CHECK(thularek_merge(NULL, 0, NULL, 0, &a, &at) == THULAREK_SONG_MALFORMED && !a && at == 0);
    CHECK(thularek_wave_heading(1, NULL, 0) == THULAREK_WAVE_NO_ROOM);
    CHECK(thularek_wave_pour(NULL, 0, NULL, 0) == THULAREK_DONE);
    CHECK(thularek_wave_sums(NULL, 0, 0, NULL, 0, &held, &loudest) == THULAREK_DONE && !held && !loudest);
    CHECK(thularek_wave_read(NULL, 0, NULL, 0, &frames) == THULAREK_WAVE_OTHER_FILE && frames == 0);
}

/* ---- Files of random bytes, and good ones with some bytes changed or cut off */

/* A preset is told of where the listing has one: its name lies in the file, and a key that it sounds is one. With
 * samples without end no window ends past them; with none, every window that is in use does. */
static void presets_of(const uint8_t *file, size_t length) {
    for (uint32_t at = 0; at < 4; at++) {
        size_t name, next, place;
        uint16_t program, bank;
        uint32_t zones, kind = thularek_list(file, length, at, &program, &bank, &next);
        uint8_t low, high;
        CHECK(thularek_preset(file, length, at, &name, &zones, &low, &high) == kind);
        CHECK(kind ? !name && !zones && !low && !high : name + 38 <= length && low <= 127 && high <= 127);
        CHECK(thularek_past_memory(file, length, SIZE_MAX, SIZE_MAX, &place) == THULAREK_DONE && place == 0);
        uint32_t number = thularek_past_memory(file, length, 0, 0, &place);
        CHECK(number == THULAREK_DONE ? place == 0 : number == THULAREK_WINDOW_PAST_MEMORY && place + 4 <= length);
        CHECK(kind || low > high || number != THULAREK_DONE);
    }
}

static void any_file(const uint8_t *good, size_t most, uint32_t files) {
    for (uint32_t i = 0; i < files; i++) {
        size_t length = chance() % (most + 1), a, b, c, d, place;
        uint8_t *room = guarded(65536), *file = memcpy(room + 65536 - length, good, length);
        for (uint32_t k = chance() % 8; length && k > 0; k--) file[chance() % length] = (uint8_t)chance();
        uint32_t at, frames;
        uint16_t program, bank;
        int16_t heard[64];
        CHECK(thularek_font(file, length, &a, &b, &c, &d, &place) || (a + b <= length && c + d <= length));
        CHECK(thularek_admit(file, length) == (thularek_bank_fault(file, length, &place) != 0));
        CHECK(thularek_list(file, length, chance() % 4, &program, &bank, &a) <= 2);
        presets_of(file, length);
        CHECK(thularek_song_test(file, length, &at) <= THULAREK_SONG_TOO_LATE && at <= 65536);
        uint8_t merged[64] = {0};
        CHECK(thularek_merge(file, length, merged, 64, &a, &at) == THULAREK_DONE ? a <= 64 : a == 0 && merged[0] == 0);
        CHECK(thularek_wave_read(file, length, heard, 64, &frames) != THULAREK_DONE || frames <= 32);
        munmap(room, 131072);
    }
}

/* ---- Outputs: exactly two numbers a frame are written, and a refusal writes none */

static void outputs(const lent *l) {
    thularek state;
    thularek_init(&state);
    CHECK(thularek_note_on(&state, l->bank, l->bank_length, l->ram, l->ram_length, NULL, 0, 0, 60, 100) == THULAREK_DONE);
    CHECK(thularek_count(&state) > 0);
    for (uint32_t n = 0; n < 40; n++) {
        uint32_t frames = n < 20 ? n : chance() % 5000, to = thularek_clock(&state) + frames;
        memset(l->out, 0xff, l->out_length * sizeof(float));
        uint32_t number = thularek_render(&state, l->ram, l->ram_length, NULL, 0, l->out, l->out_length, to);
        CHECK(number == (frames > THULAREK_FRAMES_MOST ? THULAREK_TOO_MANY_FRAMES : THULAREK_DONE));
        for (size_t i = 0; i < l->out_length; i++) {
            int written = number == THULAREK_DONE && i < 2 * (size_t)frames;
            CHECK(written ? l->out[i] >= -1 && l->out[i] <= 1 : l->out[i] != l->out[i]);
        }
    }
}

/* ---- A song event by event is the song: the same states, the same output, and as many events */

static void stepped(const lent *l) {
    thularek whole, parts;
    float *out = guarded(2 * 1000 * sizeof(float));
    thularek_init(&whole);
    CHECK(thularek_song_start(&whole, l->song, l->song_length) == THULAREK_DONE);
    parts = whole;
    for (uint32_t to = 1000; to <= 200000; to += 1000) {
        uint32_t applied = 0, refused = 0, at = 0;
        CHECK(thularek_song_render(&whole, l->song, l->song_length, l->bank, l->bank_length, l->ram, l->ram_length, l->rom,
                                   l->rom_length, l->out, l->out_length, to) == THULAREK_DONE);
        while (at < 1000) {
            uint32_t gap = thularek_song_gap(&parts, 1000 - at);
            CHECK(thularek_render(&parts, l->ram, l->ram_length, l->rom, l->rom_length, out + 2 * at, 2 * (1000 - (size_t)at),
                                  thularek_clock(&parts) + gap) == THULAREK_DONE);
            at += gap;
            if (at == 1000) break;
            CHECK(thularek_song_frame(&parts) <= thularek_clock(&parts));
            refused += thularek_song_step(&parts, l->song, l->song_length, l->bank, l->bank_length, l->ram, l->ram_length,
                                          l->rom, l->rom_length) != THULAREK_DONE;
            applied++;
        }
        CHECK(applied == thularek_count(&whole) && refused == thularek_refused(&whole));
        CHECK(same(&parts, &whole, 4, 0));
        CHECK(memcmp(out, l->out, 2 * 1000 * sizeof(float)) == 0);
    }
}

/* Sums are what a render holds, and poured at attenuation 0 they give its bytes. With the attenuation for the loudest of them,
 * or with more, none is held; a refusal writes nothing. */
static void sums(const lent *l) {
    thularek state, copy;
    uint32_t past = 0;
    uint8_t *room = guarded(65536), *another = guarded(65536);
    thularek_init(&state);
    for (uint8_t key = 0; key < 128; key += 4)
        thularek_note_on(&state, l->bank, l->bank_length, l->ram, l->ram_length, NULL, 0, 0, key, 127);
    for (uint32_t n = 0; n < 40; n++) {
        uint32_t frames = n < 20 ? n : chance() % 4097, to = thularek_clock(&state) + frames, held, loudest, most = 0;
        size_t count = 2 * (size_t)frames, short_by = count ? 1 + chance() % count : 0;
        uint8_t *bytes = room + 65536 - 2 * count, *others = another + 65536 - 2 * count;
        copy = state;
        memset(l->sums, 0x5a, l->out_length * sizeof(int32_t));
        CHECK(thularek_render(&state, l->ram, l->ram_length, NULL, 0, l->out, l->out_length, to) == THULAREK_DONE);
        CHECK(thularek_sums(&copy, l->ram, l->ram_length, NULL, 0, l->sums, l->out_length, to) == THULAREK_DONE);
        CHECK(same(&state, &copy, 0, 0));
        for (size_t i = 0; i < l->out_length; i++) {
            int32_t z = l->sums[i], k = z < -8388608 ? -8388608 : z > 8388608 ? 8388608 : z;
            CHECK(i < count ? l->out[i] == (float)k / 8388608 : z == 0x5a5a5a5a);
            uint32_t size = z < 0 ? 0 - (uint32_t)z : (uint32_t)z;
            if (i < count && most < size) most = size;
        }
        CHECK(thularek_wave_pour(l->out, count, others, 2 * count) == THULAREK_DONE);
        CHECK(thularek_wave_sums(l->sums, count, 0, bytes, 2 * count, &held, &loudest) == THULAREK_DONE);
        CHECK(memcmp(bytes, others, 2 * count) == 0 && loudest == most && (held == 0) == (most <= 8388608));
        past += held;
        uint32_t least = thularek_attenuation_for(most);
        CHECK(thularek_wave_sums(l->sums, count, (uint16_t)least, bytes, 2 * count, &held, &loudest) == THULAREK_DONE && !held);
        int32_t deep[2] = {(int32_t)(0 - most), 0};
        CHECK(least == 0 || (thularek_wave_sums(deep, 2, (uint16_t)(least - 1), bytes, 4, &held, &loudest) == 0 && held == 1));
        memset(bytes, 0x5a, 2 * count);
        CHECK(!count || thularek_wave_sums(l->sums, count, 0, bytes, 2 * count - short_by, &held, &loudest) == THULAREK_WAVE_NO_ROOM);
        CHECK(!count || thularek_wave_sums(l->sums, count - 1, 0, bytes, 2 * count, &held, &loudest) == THULAREK_WAVE_NUMBERS);
        for (size_t i = 0; count && i < 2 * count; i++) CHECK(bytes[i] == 0x5a && !held && !loudest);
    }
    CHECK(past > 0);
    for (uint32_t i = 0; i < 1000; i++) CHECK(thularek_attenuation_for(chance()) <= 1000);
}

static void messages(void) {
    static const char *unknown = "no such number";
    for (uint32_t number = 0; number < 300; number++) {
        int named = number <= THULAREK_WAVE_OTHER_FILE || (number >= THULAREK_FONT_NO_FORM && number <= THULAREK_MERGE_TOO_MANY_TRACKS);
        CHECK((strcmp(thularek_message(number), unknown) != 0) == named);
        for (uint32_t other = 0; named && other < number; other++) CHECK(strcmp(thularek_message(number), thularek_message(other)) != 0);
    }
    CHECK(strcmp(thularek_message(UINT32_MAX), unknown) == 0);
}

int main(int count, char **words) {
    if (count != 4) return fprintf(stderr, "usage: calls BANK.sf2 SONG.mid STATES\n"), 2;
    uint32_t states = (uint32_t)strtoul(words[3], NULL, 10);
    lent l = from_files(words[1], words[2]);
    messages();
    nothing_lent();
    no_files();
    outputs(&l);
    stepped(&l);
    sums(&l);
    room_is_left(&l);
    any_file(l.bank, l.bank_length < 65536 ? l.bank_length : 65536, states / 2);
    any_file(l.song, l.song_length < 65536 ? l.song_length : 65536, states / 2);
    any_state(&l, states);
    printf("%lu checks\n", checks);
    return 0;
}
