/* thularek.h: the carillon's voice engine and song player, for C99 and C++.
 *
 * The engine plays SoundFont banks at 44,100 stereo frames a second, with 32 voices on 16 channels.
 * It has no heap, no file, no clock of its own and no global state: all that it keeps is in one
 * `thularek`, in your memory, and all that it reads you lend to each call. docs/LIBRARY.md says how
 * to use it, in the order in which one does.
 *
 * WHAT A CALL ANSWERS. A call that acts returns its number: 0 (THULAREK_DONE), or why it was refused.
 * thularek_message says a number in words. A refusal changes nothing but the four numbers that the
 * questions count, refused and place tell of, and writes no output (thularek_song_step alone goes on in
 * its song). No call needs a valid bank, song or argument: each tests all that it is given.
 *
 * WHAT YOU GUARANTEE. The code behind these calls is proved; what it is handed is up to you.
 *  - Pointers: a pointer and the length behind it are memory that stays as it is through the call.
 *    A length is in elements: bytes, samples, or output numbers. With length 0 the pointer may be
 *    NULL. The state and the pointers that no length follows are never NULL.
 *  - Alignment: 8 bytes for the state, and for all others what their C type asks for.
 *  - Overlap: what a call writes (the state, `out`, the numbers it points to) overlaps nothing else
 *    that it is handed. What it only reads may overlap: RAM and ROM may be one memory.
 *  - One at a time: no two calls on one state at once, and nobody writes lent memory meanwhile. Two
 *    states may be used by two threads, and may share banks, samples and songs.
 *  - Stack: 128 KB free. No call waits, allocates or makes a system call.
 */
#ifndef THULAREK_H
#define THULAREK_H

#include <stddef.h>
#include <stdint.h>

#ifdef __cplusplus
extern "C" {
#endif

#define THULAREK_VERSION "0.1.0"

#define THULAREK_RATE 44100       /* frames a second */
#define THULAREK_FRAMES_MOST 4096 /* frames that one render makes at most */
#define THULAREK_VOICES 32        /* slots that the panel can ask for: 0 to 31 */
#define THULAREK_CHANNELS 16      /* 0 to 15 */
#define THULAREK_HEADING 44       /* bytes in front of the frames of a WAVE file */

/* How much of the state this version uses, in bytes: the size of `Flat` in crates/cabinet/src/lib.rt.
 * tools/header works it out from there, and the gate runs it. */
#define THULAREK_STATE_USED 2816

/* The state, closed to you: an engine, a player and the last call's numbers. It has room for later
 * versions. It may be copied, by `=` or memcpy, kept, and taken up again by the same version.
 * thularek_init makes one of any memory; no bytes in it make a call unsafe. */
typedef struct thularek {
    uint64_t block[1024];
} thularek;

/* Compile-time checks. A name in front, since C99 has no other way. */
typedef char thularek_state_is_8192_bytes[sizeof(thularek) == 8192 ? 1 : -1];
typedef char thularek_state_has_room[sizeof(thularek) >= THULAREK_STATE_USED ? 1 : -1];
typedef char thularek_float_is_binary32[sizeof(float) == 4 ? 1 : -1];
typedef char thularek_size_is_64_bits[sizeof(size_t) == 8 ? 1 : -1];
struct thularek_aligned { char first; thularek state; };
typedef char thularek_state_is_aligned_to_8[offsetof(struct thularek_aligned, state) == 8 ? 1 : -1];

/* ---- The numbers. Those marked later are of requests to come: no call gives them yet. */
enum {
    THULAREK_DONE = 0,
    THULAREK_BANK_NOT_ADMITTED = 1,
    THULAREK_PAST_RANGE = 2,
    THULAREK_NO_SUCH_PRESET = 3,
    THULAREK_TOO_MANY_LAYERS = 4,
    THULAREK_CLOCK_TOO_FAR = 5,
    THULAREK_TOO_MANY_FRAMES = 6,
    THULAREK_OUTPUT_TOO_SHORT = 7,
    THULAREK_WINDOW_PAST_MEMORY = 8,
    THULAREK_SONG_MALFORMED = 9,
    THULAREK_SONG_FORMAT = 10,
    THULAREK_SONG_TOO_LATE = 11,
    THULAREK_EVENTS_FULL = 12, /* later */
    THULAREK_WAVE_NUMBERS = 13,
    THULAREK_WAVE_TOO_LONG = 14,
    THULAREK_WAVE_NO_ROOM = 15,
    THULAREK_BOOK_MALFORMED = 16,  /* later */
    THULAREK_BOOK_PAST_RANGE = 17, /* later */
    THULAREK_THIN_NO_SUCH_PAIR = 18, /* later */
    THULAREK_THIN_NO_ROOM = 19,      /* later */
    THULAREK_BOOK_NO_ROOM = 20,      /* later */
    /* why a bank is not admitted: 20 and the kind that thularek_bank_fault answers */
    THULAREK_BANK_TOO_LONG = 21,
    THULAREK_BANK_CHUNK = 22,
    THULAREK_BANK_RECORDS = 23,
    THULAREK_BANK_INDEX = 24,
    THULAREK_BANK_NUMBER = 25,
    THULAREK_BANK_RATE = 26,
    THULAREK_BANK_WINDOW = 27,
    THULAREK_WAVE_OTHER_FILE = 28,
    THULAREK_FONT_NO_FORM = 40,
    THULAREK_FONT_CUT = 41,
    THULAREK_FONT_MISSING = 42,
    THULAREK_MERGE_NO_ROOM = 43,
    THULAREK_MERGE_TOO_MANY_TRACKS = 44
};

/* What a number says, in words: a line without a full stop, in memory that is always there. Any
 * number may be asked for; one that no call gives is "no such number". */
const char *thularek_message(uint32_t number);

/* ---- The state */

/* A fresh engine and no song, whatever was in the memory: clock 0, all channels as 01 has them. 0. */
uint32_t thularek_init(thularek *state);

/* ---- The messages of a MIDI cable. Each acts at once, at the clock's value. */

/* A key is struck. Velocity 0 lets it go, and needs no bank. `bank` is the body of a SoundFont
 * file's pdta list; `ram` its samples; `rom` those of a ROM, or none. 0, and the count is the layers
 * started; else 2, 1, 3, 4, 8, tested in this order. The bank is tested as a whole each time. */
uint32_t thularek_note_on(thularek *state, const uint8_t *bank, size_t bank_length, const int16_t *ram,
                          size_t ram_length, const int16_t *rom, size_t rom_length, uint8_t channel, uint8_t key,
                          uint8_t velocity);

/* A key is let go. 0, and the count is the voices released or marked for the pedal; else 2. */
uint32_t thularek_note_off(thularek *state, uint8_t channel, uint8_t key);

/* A control is set: 0 bank, 7 volume, 11 expression, 64 pedal, 120 all sound off, 123 all notes off.
 * Others do nothing. 0, or 2. */
uint32_t thularek_control_change(thularek *state, uint8_t channel, uint8_t control, uint8_t value);

/* A program is chosen, with the bank that control 0 stored. 0, or 2. */
uint32_t thularek_program_change(thularek *state, uint8_t channel, uint8_t program);

/* A channel is bent: 0 to 16,383, 8,192 is the middle. 0, or 2. */
uint32_t thularek_pitch_bend(thularek *state, uint8_t channel, uint16_t bend);

/* ---- Sound */

/* Frames up to the clock value `to`, at most 4,096, left and right alternating, each number a whole
 * k/2^23 in -1..1. Writes exactly two numbers a frame, from the front of `out`; those behind stay. No
 * song advances. 0, or 5, 6, 7, 8, tested in this order. The clock has 32 bits and rolls over. */
uint32_t thularek_render(thularek *state, const int16_t *ram, size_t ram_length, const int16_t *rom,
                         size_t rom_length, float *out, size_t out_length, uint32_t to);

/* As thularek_render, but each number is the sum of voices itself, which a render holds to -2^23..2^23
 * and multiplies by 2^-23: for a recorder that lowers what would be held. The same numbers and state. */
uint32_t thularek_sums(thularek *state, const int16_t *ram, size_t ram_length, const int16_t *rom,
                       size_t rom_length, int32_t *out, size_t out_length, uint32_t to);

/* ---- Songs: Standard MIDI Files of format 0, at most 65,536 bytes. thularek_merge makes such files of
 * those of format 1, which most are. */

/* A song starts at the clock's value; what sounded is let go. The same bytes are lent to each
 * thularek_song_render. 0; else 9, 10, 11, thularek_place is the fault's byte, and nothing starts. */
uint32_t thularek_song_start(thularek *state, const uint8_t *song, size_t song_length);

/* The song stops; on every channel the pedal comes up and all keys are let go. 0. */
uint32_t thularek_song_stop(thularek *state);

/* As thularek_render, and in front of each frame the song's events that are due act. The count is the
 * events that acted, and thularek_refused how many of these the engine refused. */
uint32_t thularek_song_render(thularek *state, const uint8_t *song, size_t song_length, const uint8_t *bank,
                              size_t bank_length, const int16_t *ram, size_t ram_length, const int16_t *rom,
                              size_t rom_length, float *out, size_t out_length, uint32_t to);

/* A song event by event, for a host that wants to know of each event whether it was refused, and why:
 * thularek_song_gap is how far the next event is, thularek_render makes the frames up to it, and this lets
 * the event act, now, due or not. Its number is 0, or 1, 2, 3, 4, 8: then the engine is as it was, and the
 * song goes on behind the event. The count is 1; where no event is left it is 0, and nothing changes. */
uint32_t thularek_song_step(thularek *state, const uint8_t *song, size_t song_length, const uint8_t *bank,
                            size_t bank_length, const int16_t *ram, size_t ram_length, const int16_t *rom,
                            size_t rom_length);

/* ---- Questions. They change nothing, not even the last call's numbers. */

/* The last call's count, the refused events among those it counts, and the place of a song's fault. */
uint32_t thularek_count(const thularek *state);
uint32_t thularek_refused(const thularek *state);
uint32_t thularek_place(const thularek *state);

/* The clock: the frame with which the next render begins. */
uint32_t thularek_clock(const thularek *state);

/* 1 where no event of a song is left, or none was started, else 0. */
uint32_t thularek_song_is_over(const thularek *state);

/* The frames up to the song's next event, at most `most`: 0 where it is due, `most` where none is left. */
uint32_t thularek_song_gap(const thularek *state, uint32_t most);

/* The next event, which the next step lets act: its three bytes, status + 256 * first + 65,536 * second,
 * and its frame, counted from the song's start. 0 for both where none is left. */
uint32_t thularek_song_next(const thularek *state);
uint32_t thularek_song_frame(const thularek *state);

/* What a note-on of a channel, 0 to 15, looks for in a bank: a program, and the bank number that the last
 * program change took, or 128 on channel 9. 65,535 for both past channel 15. */
uint32_t thularek_channel_program(const thularek *state, uint8_t channel);
uint32_t thularek_channel_bank(const thularek *state, uint8_t channel);

/* 1 where no voice sounds, else 0. */
uint32_t thularek_is_silent(const thularek *state);

/* How many voices sound, and how many of them are held: neither released nor waiting for the pedal. */
uint32_t thularek_voice_count(const thularek *state);
uint32_t thularek_held_count(const thularek *state);

/* What the panel shows of a slot, 0 to 31: its stage, and the level, 0 to 1, where the stage has one. */
enum {
    THULAREK_DELAY = 0,
    THULAREK_ATTACK = 1,
    THULAREK_HOLD = 2,
    THULAREK_DECAY = 3,
    THULAREK_SUSTAIN = 4,
    THULAREK_RELEASE = 5,
    THULAREK_FREE = 6,
    THULAREK_NO_SLOT = 7
};
uint32_t thularek_panel_stage(const thularek *state, uint8_t slot);
float thularek_panel_level(const thularek *state, uint8_t slot);

/* ---- Files, as bytes in memory. Numbers beside the answer go where you point; where there is none,
 * a 0 goes there. */

/* Where the bank and the samples of a SoundFont file lie, as places and sizes in bytes. 0; else 40,
 * 41, 42, and `place` is the fault's. Samples begin at any byte: copy them where `file + samples` is not
 * aligned to 2. An odd byte at their end is no sample. */
uint32_t thularek_font(const uint8_t *file, size_t file_length, size_t *bank, size_t *bank_size, size_t *samples,
                       size_t *samples_size, size_t *place);

/* 0 where the bank is admitted, else 1. */
uint32_t thularek_admit(const uint8_t *bank, size_t bank_length);

/* Why it is not: 0, or the kind of its first fault, 1 to 7, and the fault's byte goes to `place`.
 * thularek_message(20 + kind) says it in words. */
uint32_t thularek_bank_fault(const uint8_t *bank, size_t bank_length, size_t *place);

/* The presets of a bank, one a call, from place 0 on: 0, a preset's program and bank, and the place to
 * ask for next; 1 where the bank is not admitted, 2 at the end. */
uint32_t thularek_list(const uint8_t *bytes, size_t bytes_length, uint32_t place, uint16_t *program,
                       uint16_t *bank, size_t *next);

/* What is told of the preset at a place of that listing: 0, and at `bytes + name` is its name, up to the
 * first zero and at most 20 bytes; its zones, a global one too; and the lowest and the highest key that it
 * sounds at some velocity, 127 and 0 where it sounds none. 1 where the bank is not admitted, 2 at the end. */
uint32_t thularek_preset(const uint8_t *bytes, size_t bytes_length, uint32_t place, size_t *name, uint32_t *zones,
                         uint8_t *low, uint8_t *high);

/* Whether an admitted bank's windows lie within memories of so many samples: 0; else 8, and `place` is the
 * byte of the 53 of the first zone whose window does not. A note-on that needs that zone answers 8 too. Of a
 * bank that is not admitted nothing is told: 0. */
uint32_t thularek_past_memory(const uint8_t *bank, size_t bank_length, size_t ram_count, size_t rom_count,
                              size_t *place);

/* Whether a song can be played: 0; else 9, 10, 11 and the place of its first fault. */
uint32_t thularek_song_test(const uint8_t *song, size_t song_length, uint32_t *place);

/* A song of several tracks (format 1) as one that can be played: its bytes go to the front of `out`, and
 * how many there are to `size`. Songs of format 0 go through too. At most 256 tracks and 16,777,216
 * bytes. 0; else 9, 10, 11, 44, 43, and `place` is the fault's; a refusal writes nothing to `out`. */
uint32_t thularek_merge(const uint8_t *file, size_t file_length, uint8_t *out, size_t out_length, size_t *size,
                        uint32_t *place);

/* The 44 bytes in front of so many frames, to the front of `out`. 0, or 14, 15. */
uint32_t thularek_wave_heading(uint64_t frames, uint8_t *out, size_t out_length);

/* Output numbers as bytes of a WAVE file, two for each, to the front of `out`. 0, or 13, 15. */
uint32_t thularek_wave_pour(const float *numbers, size_t numbers_length, uint8_t *out, size_t out_length);

/* Sums of thularek_sums as bytes of a WAVE file, two for each, to the front of `out`: each is lowered by
 * the attenuation in cB (0: not at all; above 1,440: to 0), and then held to -2^23..2^23. `held` is how
 * many frames had a sum that was held, `loudest` the largest size of a sum before it was lowered.
 * 0, or 13, 15; a refusal writes nothing to `out`, and both numbers are 0. */
uint32_t thularek_wave_sums(const int32_t *sums, size_t sums_length, uint16_t attenuation, uint8_t *out,
                            size_t out_length, uint32_t *held, uint32_t *loudest);

/* The least attenuation in cB with which no sum of at most this size is held. */
uint32_t thularek_attenuation_for(uint32_t loudest);

/* The frames of a file that the first two made: its 16-bit numbers go to the front of `out`, and their
 * frames to `frames`. 0, or 28, 15. */
uint32_t thularek_wave_read(const uint8_t *file, size_t file_length, int16_t *out, size_t out_length,
                            uint32_t *frames);

#ifdef __cplusplus
}
#endif
#endif
