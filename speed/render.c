// The renders of crates/render_bench in C, for the banks that speed/bank makes with one layer: the same 32 voices, frame by frame (speed/voice.c), then the mixer.
// render IN: IN as render_bench reads it, and behind it what a voice gets of the bank (speed/bank.c); strikes other than 32 are not played.
#define main voice_main
#include "voice.c"
#undef main
#include <string.h>

static float out[8192];

static uint32_t u32(void) {
    uint32_t x = 0;
    for (int k = 0; k < 4; k++) x |= (uint32_t)getchar() << 8 * k;
    return x;
}

static uint32_t frames(int32_t t, int32_t most) {
    if (t <= -32768) return 0;
    t = (t < -12000 ? -12000 : t > most ? most : t) + 12000;
    return (uint32_t)((uint64_t)OCTAVES[t % 1200] * 44100 * (1ull << t / 1200) >> 40);
}

static struct {
    int32_t end, mode, from, to, rate, scale, cents, loss, delay, attack, hold, decay, sustain;
} given;

static Slot struck_by(uint8_t key) {
    Voice v = {.stage = {DELAY, frames(given.delay, 5000), 0}, .key = key, .velocity = 100, .end = (uint32_t)given.end, .mode = (uint8_t)given.mode};
    v.loopfrom = (uint32_t)given.from, v.loopto = (uint32_t)given.to, v.rate = (uint16_t)given.rate;
    v.pitch = (key - 60) * given.scale + given.cents, v.attenuation = given.loss + VELOCITIES[100], v.sustain = (uint16_t)given.sustain;
    v.attack = frames(given.attack, 8000), v.hold = frames(given.hold, 5000), v.decay = frames(given.decay, 8000), v.release = frames(-12000, 8000);
    return (Slot){true, v};
}

static Slot slots[32];

static void strike(void) {
    for (uint8_t i = 0; i < 32; i++) slots[i] = struck_by(40 + i);
}

static void mix(uint32_t n) {
    for (size_t k = 0; k < 2 * n; k++) {
        int32_t x = acc[k] < -8388608 ? -8388608 : acc[k] > 8388608 ? 8388608 : acc[k];
        out[k] = (float)x * 0x1p-23f;
    }
}

int main(void) {
    uint32_t strikes = u32(), renders = u32(), n = u32(), again = u32(), word = 0;
    if (strikes != 32 || n > 4096 || (again != 0 && again != 32)) return fprintf(stderr, "render: 32 strikes, 4,096 frames at most, 0 or 32 strikes again\n"), 2;
    for (uint32_t k = u32(); k > 0; k--) getchar();
    uint32_t count = u32();
    for (uint32_t k = 0; k < count && k < 65536; k++) {
        int low = getchar(), high = getchar();
        w[k] = (int16_t)(uint16_t)(low | high << 8);
    }
    for (size_t k = 0; k < sizeof given / sizeof given.end; k++) (&given.end)[k] = (int32_t)u32();
    strike();
    for (uint32_t r = 0; r < renders; r++) {
        if (again) strike();
        memset(acc, 0, sizeof acc);
        for (int i = 0; i < 32; i++)
            if (slots[i].sounding) run(&slots[i], 8192, 100, 127, w, (size_t)given.end, acc, n);
        mix(n);
    }
    for (int i = 0; i < 32; i++) word |= (uint32_t)slots[i].sounding << i;
    uint64_t h = 0xcbf29ce484222325;
    for (size_t k = 0; k < 8192; k++) {
        uint32_t bits;
        memcpy(&bits, &out[k], 4);
        for (int b = 0; b < 4; b++) h = (h ^ (bits >> 8 * b & 255)) * 0x100000001b3;
    }
    printf("%08x %016llx\n", word, (unsigned long long)h);
    return 0;
}
