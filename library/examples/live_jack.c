/* live_jack BANK.sf2 [SECONDS]: plays the bank live, as a JACK client with one MIDI input and two outputs. Each message takes
 * effect at its own frame: frames are rendered up to it, then it acts. JACK has to run at 44,100. */
#define _DEFAULT_SOURCE
#include "thularek.h"
#include <jack/jack.h>
#include <jack/midiport.h>
#include <stdio.h>
#include <stdlib.h>
#include <string.h>
#include <unistd.h>

static uint8_t *bank;
static int16_t *samples;
static size_t bank_size, sample_count;
static thularek state;
static uint32_t messages, refused;
static jack_port_t *midi, *left, *right;

/* ---- In JACK's thread: no memory is asked for, and nothing waits */

static void act(const uint8_t *bytes, size_t size) {
    uint8_t channel = bytes[0] & 15, first = size > 1 ? bytes[1] : 0, second = size > 2 ? bytes[2] : 0;
    uint32_t number = THULAREK_DONE;
    switch (bytes[0] >> 4) {
    case 0x8: number = thularek_note_off(&state, channel, first); break;
    case 0x9:
        number = thularek_note_on(&state, bank, bank_size, samples, sample_count, NULL, 0, channel, first, second);
        break;
    case 0xb: number = thularek_control_change(&state, channel, first, second); break;
    case 0xc: number = thularek_program_change(&state, channel, first); break;
    case 0xe: number = thularek_pitch_bend(&state, channel, (uint16_t)(first + 128 * second)); break;
    default: return;
    }
    messages++;
    refused += number != THULAREK_DONE;
}

/* The frames of a period from one to another, at most 4,096 at a time. */
static void sound(float *l, float *r, uint32_t from, uint32_t to) {
    static float out[2 * THULAREK_FRAMES_MOST];
    while (from < to) {
        uint32_t count = to - from < THULAREK_FRAMES_MOST ? to - from : THULAREK_FRAMES_MOST;
        uint32_t clock = thularek_clock(&state) + count;
        if (thularek_render(&state, samples, sample_count, NULL, 0, out, 2 * (size_t)count, clock)) memset(out, 0, sizeof out);
        for (uint32_t i = 0; i < count; i++) l[from + i] = out[2 * i], r[from + i] = out[2 * i + 1];
        from += count;
    }
}

static int period(jack_nframes_t frames, void *unused) {
    float *l = jack_port_get_buffer(left, frames), *r = jack_port_get_buffer(right, frames);
    void *events = jack_port_get_buffer(midi, frames);
    uint32_t done = 0, count = jack_midi_get_event_count(events);
    (void)unused;
    for (uint32_t i = 0; i < count; i++) {
        jack_midi_event_t event;
        if (jack_midi_event_get(&event, events, i) || event.size == 0) continue;
        sound(l, r, done, event.time);
        done = event.time;
        act(event.buffer, event.size);
    }
    sound(l, r, done, frames);
    return 0;
}

/* ---- Before and behind it */

static int fail(const char *what, const char *why) { return fprintf(stderr, "live_jack: %s: %s\n", what, why), 1; }

/* Reads the bank and its samples; 0 where both are there. */
static int take(const char *name) {
    FILE *in = fopen(name, "rb");
    if (!in || fseek(in, 0, SEEK_END)) return fail(name, "cannot be read");
    size_t length = (size_t)ftell(in), at, from, size, place;
    uint8_t *file = malloc(length + 1);
    rewind(in);
    if (!file || fread(file, 1, length, in) != length) return fail(name, "cannot be read");
    fclose(in);
    uint32_t number = thularek_font(file, length, &at, &bank_size, &from, &size, &place);
    if (number) return fail(name, thularek_message(number));
    bank = file + at;
    number = thularek_bank_fault(bank, bank_size, &place);
    if (number) return fail(name, thularek_message(20 + number));
    sample_count = size / 2;
    samples = malloc(size + 2);
    return samples ? memcpy(samples, file + from, size), 0 : fail(name, "there is no room for its samples");
}

int main(int count, char **words) {
    if (count < 2 || count > 3) return fputs("usage: live_jack BANK.sf2 [SECONDS]\n", stderr), 2;
    if (take(words[1])) return 1;
    thularek_init(&state);
    jack_client_t *client = jack_client_open("thularek", JackNoStartServer, NULL);
    if (!client) return fail("JACK", "no server runs");
    if (jack_get_sample_rate(client) != THULAREK_RATE) {
        fprintf(stderr, "live_jack: JACK runs at %u frames a second, and a bell is only in tune at 44100\n", jack_get_sample_rate(client));
        return jack_client_close(client), 1;
    }
    midi = jack_port_register(client, "midi", JACK_DEFAULT_MIDI_TYPE, JackPortIsInput, 0);
    left = jack_port_register(client, "left", JACK_DEFAULT_AUDIO_TYPE, JackPortIsOutput | JackPortIsTerminal, 0);
    right = jack_port_register(client, "right", JACK_DEFAULT_AUDIO_TYPE, JackPortIsOutput | JackPortIsTerminal, 0);
    if (!midi || !left || !right || jack_set_process_callback(client, period, NULL) || jack_activate(client))
        return jack_client_close(client), fail("JACK", "gives no ports");
    for (int rest = count > 2 ? atoi(words[2]) : -1; rest != 0; rest -= rest > 0) sleep(1);
    jack_client_close(client);
    printf("%u frames, %u messages, %u refused\n", thularek_clock(&state), messages, refused);
    return 0;
}
