/* strike BANK.sf2 KEY OUT.wav: strikes one bell, holds it for a second and lets it ring out, into a WAVE file. */
#include "thularek.h"
#include <stdio.h>
#include <stdlib.h>
#include <string.h>

static uint8_t file[1 << 26], wave[THULAREK_HEADING + 4 * THULAREK_RATE * 20];
static int16_t samples[1 << 25];
static float out[2 * THULAREK_FRAMES_MOST];
static thularek state;

static void must(uint32_t number, const char *what) {
    if (number != THULAREK_DONE) fprintf(stderr, "strike: %s: %s\n", what, thularek_message(number)), exit(1);
}

int main(int count, char **words) {
    int key = count == 4 ? atoi(words[2]) : -1;
    if (key < 0 || key > 127) return fputs("usage: strike BANK.sf2 KEY OUT.wav, a key of 0 to 127\n", stderr), 2;
    FILE *in = fopen(words[1], "rb");
    if (!in) return perror(words[1]), 1;
    size_t length = fread(file, 1, sizeof file, in), bank, bank_size, at, size, place, end = THULAREK_HEADING;
    must(thularek_font(file, length, &bank, &bank_size, &at, &size, &place), words[1]);
    memcpy(samples, file + at, size);
    thularek_init(&state);
    must(thularek_note_on(&state, file + bank, bank_size, samples, size / 2, NULL, 0, 0, (uint8_t)key, 100), "note-on");
    while (!thularek_is_silent(&state) && end + 4 * 441 <= sizeof wave) {
        if (thularek_clock(&state) == THULAREK_RATE) thularek_note_off(&state, 0, (uint8_t)key);
        must(thularek_render(&state, samples, size / 2, NULL, 0, out, 882, thularek_clock(&state) + 441), "render");
        must(thularek_wave_pour(out, 882, wave + end, sizeof wave - end), "pour");
        end += 2 * 882;
    }
    must(thularek_wave_heading((end - THULAREK_HEADING) / 4, wave, THULAREK_HEADING), "heading");
    FILE *to = fopen(words[3], "wb");
    if (!to || fwrite(wave, 1, end, to) != end || fclose(to)) return perror(words[3]), remove(words[3]), 1;
    return printf("%s: %zu frames\n", words[3], (end - THULAREK_HEADING) / 4) < 0;
}
