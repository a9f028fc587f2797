/* What crates/render_bench does, through the C library: the same input, the same line. For speed/library. */
#include "thularek.h"
#include <stdio.h>
#include <string.h>

static uint8_t bank[66000];
static int16_t ram[65536];
static float out[8192];
static thularek state;

static uint32_t number(void) {
    uint8_t b[4] = {0};
    if (fread(b, 1, 4, stdin) != 4) return 0;
    return b[0] | (uint32_t)b[1] << 8 | (uint32_t)b[2] << 16 | (uint32_t)b[3] << 24;
}

static void strike(uint32_t strikes, size_t bank_size, size_t samples) {
    for (uint32_t i = 0; i < strikes; i++)
        thularek_note_on(&state, bank, bank_size, ram, samples, ram, samples, 0, (uint8_t)(40 + i % 32), 100);
}

int main(void) {
    uint32_t strikes = number(), renders = number(), frames = number(), again = number();
    size_t bank_size = fread(bank, 1, number(), stdin), samples = fread(ram, 2, number(), stdin);
    thularek_init(&state);
    strike(strikes, bank_size, samples);
    for (uint32_t i = 0; i < renders; i++) {
        strike(again, bank_size, samples);
        thularek_render(&state, ram, samples, ram, samples, out, 8192, thularek_clock(&state) + frames);
    }
    uint32_t sounding = 0;
    uint64_t hash = 0xcbf29ce484222325u;
    for (uint8_t slot = 0; slot < 32; slot++) sounding |= (uint32_t)(thularek_panel_stage(&state, slot) != THULAREK_FREE) << slot;
    for (size_t i = 0; i < sizeof out; i++) hash = (hash ^ ((uint8_t *)out)[i]) * 0x100000001b3u;
    printf("%08x %016llx\n", sounding, (unsigned long long)hash);
    return 0;
}
