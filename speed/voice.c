// The same work as crates/voice_bench, in C: 32 voices of mixed stages, 4,096 frames a round, one frame after the other.
// tables.h is made by speed/voice from the tables of crates/curves.
#include <stdbool.h>
#include <stddef.h>
#include <stdint.h>
#include <stdio.h>
#include "tables.h"

enum Kind { DELAY, ATTACK, HOLD, DECAY, SUSTAIN, RELEASE };
typedef struct {
    enum Kind kind;
    uint32_t t; // frames spent; in delay those left
    uint16_t from;
} Stage;
typedef struct {
    Stage stage;
    uint64_t place;
    uint8_t channel, key, velocity;
    bool marked;
    uint16_t class;
    bool rom;
    uint32_t start, end;
    uint8_t mode;
    uint32_t loopfrom, loopto;
    uint16_t rate;
    int32_t pitch;
    int16_t pan;
    int32_t attenuation;
    uint32_t attack, hold, decay;
    uint16_t sustain;
    uint32_t release;
} Voice;
typedef struct {
    bool sounding;
    Voice voice;
} Slot;

static int64_t floor1000(int64_t x) { return (int64_t)((uint64_t)(x + 1000000000000) / 1000) - 1000000000; }

static uint32_t step_of(const Voice *v, uint16_t bend) {
    int64_t cents = v->pitch + (((int64_t)bend - 8192) * 25 >> 10);
    if (cents < -9600) cents = -9600;
    if (cents > 4800) cents = 4800;
    uint32_t c = (uint32_t)(cents + 9600);
    return (uint32_t)((uint64_t)OCTAVES[c % 1200] * v->rate / 44100 >> (14 - c / 1200));
}

static uint32_t decay_at(const Voice *v, uint32_t t) {
    if (v->decay == 0) return v->sustain;
    uint64_t q = 1000 * (uint64_t)t / v->decay;
    return q < v->sustain ? (uint32_t)q : v->sustain;
}

static uint32_t level_at(const Voice *v, uint32_t t) {
    if (v->attack == 0) return 0;
    uint64_t q = 16777216 * (uint64_t)t / v->attack;
    return q < 16777216 ? (uint32_t)q : 16777216;
}

static uint64_t envelope(const Voice *v) {
    switch (v->stage.kind) {
    case DECAY: return decay_at(v, v->stage.t);
    case SUSTAIN: return v->sustain;
    case RELEASE: return v->release == 0 ? 1000 : v->stage.from + 1000 * (uint64_t)v->stage.t / v->release;
    default: return 0;
    }
}

static void enter(Voice *v) {
    if (v->stage.kind == DELAY && v->stage.t == 0) v->stage = (Stage){ATTACK, 0, 0};
    if (v->stage.kind == ATTACK && v->attack <= v->stage.t) v->stage = (Stage){HOLD, 0, 0};
    if (v->stage.kind == HOLD && v->hold <= v->stage.t) v->stage = (Stage){DECAY, 0, 0};
    if (v->stage.kind == DECAY && v->sustain <= decay_at(v, v->stage.t)) v->stage = (Stage){SUSTAIN, 0, 0};
}

static bool folds(const Voice *v) {
    return v->loopfrom < v->loopto && (v->mode == 1 || (v->mode == 3 && v->stage.kind != RELEASE));
}

static uint64_t fold(uint64_t a, uint64_t b, uint64_t p) {
    if (p < b) return p;
    uint64_t near = p - (b - a);
    return near < b ? near : a + (p - a) % (b - a);
}

// Behind sample i: while it folds, behind the loop's last stands its first.
static size_t behind(const Voice *v, bool f, size_t i) { return f && i + 1 == v->loopto ? v->loopfrom : i + 1; }

static int64_t sample(const int16_t *w, size_t len, size_t i) { return i < len ? w[i] : 0; }

// Four points, q in 4,096ths of the way from x1 to x2 (02, M-100): the same sum, by Horner's rule and with x1 taken out of the fraction.
static int64_t smooth(int64_t x0, int64_t x1, int64_t x2, int64_t x3, int64_t q) {
    int64_t c1 = x2 - x0, c2 = 2 * x0 - 5 * x1 + 4 * x2 - x3, c3 = 3 * x1 - x0 - 3 * x2 + x3;
    int64_t x = x1 + (((c3 * q + c2 * 4096) * q + c1 * 4096 * 4096) * q >> 37);
    return x < -32768 ? -32768 : x > 32767 ? 32767 : x;
}

// x0 is the sample before x1, after a fold too; 0 at the window's start.
static int64_t reading(const Voice *v, bool f, const int16_t *w, size_t len) {
    size_t i = v->place >> 24, j = behind(v, f, i), k = behind(v, f, j);
    return smooth(i > 0 ? sample(w, len, i - 1) : 0, sample(w, len, i), sample(w, len, j), sample(w, len, k), v->place >> 12 & 4095);
}

static void run(Slot *s, uint16_t bend, uint8_t volume, uint8_t expression, const int16_t *w, size_t len, int32_t *acc, size_t n) {
    Voice *v = &s->voice;
    uint32_t st = step_of(v, bend);
    int64_t loss = (int64_t)v->attenuation + VELOCITIES[volume] + VELOCITIES[expression];
    int64_t pan = v->pan < -500 ? -500 : v->pan > 500 ? 500 : v->pan;
    for (size_t k = 0; k < n && s->sounding; k++) {
        Stage before = v->stage;
        enter(v);
        uint64_t e = envelope(v);
        if (v->stage.kind >= DECAY && e >= 1000) {
            v->stage = before;
            s->sounding = false;
            return;
        }
        if (v->stage.kind == DELAY) {
            v->stage.t--;
            continue;
        }
        bool f = folds(v);
        int64_t x = reading(v, f, w, len);
        int64_t a = loss + (int64_t)e;
        if (a < 0) a = 0;
        int64_t u = x * (a > 1440 ? 0 : GAINS[a]) >> 16;
        if (v->stage.kind == ATTACK) u = u * level_at(v, v->stage.t) >> 24;
        acc[2 * k] += (int32_t)floor1000(u * (500 - pan));
        acc[2 * k + 1] += (int32_t)floor1000(u * (500 + pan));
        if (f) {
            uint64_t from = (uint64_t)v->loopfrom << 24, to = (uint64_t)v->loopto << 24;
            v->place = fold(from, to, fold(from, to, v->place) + st);
        } else {
            uint64_t end = (uint64_t)(v->end < v->start ? 0 : v->end - v->start) << 24;
            if (end <= v->place || end <= v->place + st) {
                v->stage = before;
                s->sounding = false;
                return;
            }
            v->place += st;
        }
        if (v->stage.kind != SUSTAIN) v->stage.t++;
    }
}

static Slot struck(uint8_t i, uint64_t r) {
    static const Stage stages[8] = {{DELAY, 1000, 0}, {ATTACK, 0, 0}, {HOLD, 0, 0}, {DECAY, 0, 0}, {DECAY, 20000, 0}, {SUSTAIN, 0, 0}, {RELEASE, 0, 100}, {SUSTAIN, 0, 0}};
    static const uint8_t modes[4] = {0, 1, 3, 1};
    static const int32_t cents[5] = {-2400, -700, 0, 650, 1800};
    static const int16_t pans[3] = {-490, 40, 300};
    uint32_t length = i > 23 ? 40u + i : 3000u + 100u * i;
    return (Slot){true, {stages[i % 8], r % 64 * 1048576, 0, 60, 100, false, 0, false, 0, 65536, modes[i / 8], 10u * i, 10u * i + length,
                         44100, cents[i % 5], pans[i % 3], 40, 7000, 9000, 200000, 300, 90000}};
}

static int16_t w[65536];
static int32_t acc[8192];

int main(void) {
    uint64_t rounds = 0, h = 0;
    while (rounds < 65536 && getchar() != EOF) rounds++;
    uint32_t x = 1;
    for (size_t i = 0; i < 65536; i++) w[i] = (int16_t)((int32_t)((x = (x * 25173 + 13849) % 65536) % 20000) - 10000);
    for (uint64_t r = 0; r < rounds; r++) {
        for (size_t k = 0; k < 8192; k++) acc[k] = 0;
        for (uint8_t i = 0; i < 32; i++) {
            Slot s = struck(i, r);
            run(&s, 8192, 127, 127, w, 65536, acc, 4096);
            h += s.voice.place;
        }
        for (size_t k = 0; k < 8192; k++) h += (uint64_t)((int64_t)acc[k] + 1000000000) * (k + 1);
    }
    printf("%016llx\n", (unsigned long long)h);
    return 0;
}
