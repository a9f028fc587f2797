/* Makes one bank twice: as the engine is lent it, and as a SoundFont file for FluidSynth.
   bank KIND IN SF2: IN gets u32 length and the pdta body, u32 count and the samples (16 bits), and what a voice gets of them, for render.c; SF2 the RIFF file.
   KIND: bell (one looped sample of 20,000), middle and full (the same, filled to some 8,000 and 65,536 bytes with zones that no preset reaches),
   short (a loop of one sample at the highest pitch, every generator repeated 200 times), deep (4,000 preset zones that all match, of an instrument
   with 2,600 zones of which none does), wide (32 preset zones that all match, of an instrument with 15,900 zones of which the last does);
   or LOOP-PITCH-STAGE, for voices that cost much:
   LOOP is the loop's samples: 17000 is bell's, 0 is a window of one sample without a loop, others begin at the window's second sample (at the lowest pitch
   at its first, which no voice leaves soon).
   PITCH: keys (each key its own), one (a little more than a sample a frame), high and low (the highest pitch at the highest rate, 18 samples a frame; the
   lowest at the lowest, 28,244 frames a sample).
   STAGE, the first that lasts at all: decay (some 100 seconds, 1,200 cB down, where to find a gain costs most), noise (the same by samples of chance, half of
   them at an end of the 16 bits), loud (noise in bell's decay, for a hash that tells), attack (as long as decay, as far down), quick (a decay of 1,000 frames,
   each with a gain of its own, from 440 to 1,440 cB in all), slow (a decay of 16,000 frames, each 16 of them with a gain), hold, delay (18 seconds each). */
#include <math.h>
#include <stdint.h>
#include <stdio.h>
#include <stdlib.h>
#include <string.h>

typedef struct {
    uint8_t at[1 << 20];
    size_t n;
} Bytes;

static void u8(Bytes *b, unsigned x) { b->at[b->n++] = (uint8_t)x; }
static void u16(Bytes *b, unsigned x) { u8(b, x & 255), u8(b, x >> 8 & 255); }
static void u32(Bytes *b, uint32_t x) { u16(b, x & 65535), u16(b, x >> 16); }
static void word(Bytes *b, const char *s) { memcpy(b->at + b->n, s, 4), b->n += 4; }

static void name(Bytes *b, const char *s) {
    char t[20] = {0};
    strncpy(t, s, 19);
    memcpy(b->at + b->n, t, 20), b->n += 20;
}

static void chunk(Bytes *to, const char *id, const Bytes *body) {
    word(to, id), u32(to, (uint32_t)body->n);
    memcpy(to->at + to->n, body->at, body->n), to->n += body->n;
    if (body->n & 1) u8(to, 0);
}

static Bytes phdr, pbag, pmod, pgen, inst, ibag, imod, igen, shdr, pdta, smpl, info, sdta, riff, part;

static void head(const char *s, unsigned bag) { name(&phdr, s), u16(&phdr, 0), u16(&phdr, 0), u16(&phdr, bag), u32(&phdr, 0), u32(&phdr, 0), u32(&phdr, 0); }

static void sample(const char *s, uint32_t start, uint32_t end, uint32_t from, uint32_t to, uint32_t rate) {
    name(&shdr, s), u32(&shdr, start), u32(&shdr, end), u32(&shdr, from), u32(&shdr, to), u32(&shdr, rate);
    u8(&shdr, 60), u8(&shdr, 0), u16(&shdr, 0), u16(&shdr, 1);
}

static void gen(Bytes *b, unsigned op, int amount) { u16(b, op), u16(b, (unsigned)amount & 65535); }

/* Zones of a second instrument, of six generators each, until the bank has about so many bytes. */
static void filled(size_t bytes, unsigned n) {
    unsigned bag = 1;
    for (size_t have = 500; have + 28 <= bytes; have += 28) {
        for (int k = 0; k < 5; k++) gen(&igen, 33 + k, -12000 + k), n++;
        gen(&igen, 53, 0), n++;
        u16(&ibag, n), u16(&ibag, 0), bag++;
    }
    gen(&igen, 0, 0);
    inst.n = 0;
    name(&inst, "Bell"), u16(&inst, 0), name(&inst, "More"), u16(&inst, 1), name(&inst, "EOI"), u16(&inst, bag);
}

/* Preset zones that all name instrument 0, which has so many zones. */
static void naming(unsigned presets, unsigned zones) {
    head("Bell", 0), head("EOP", presets);
    for (unsigned z = 0; z <= presets; z++) u16(&pbag, z), u16(&pbag, 0), gen(&pgen, 41, 0);
    name(&inst, "Bell"), u16(&inst, 0), name(&inst, "EOI"), u16(&inst, zones);
    for (int i = 0; i < 10; i++) u8(&pmod, 0), u8(&imod, 0);
    sample("Bell", 0, 20000, 2000, 19000, 44100), sample("EOS", 0, 0, 0, 0, 0);
}

/* Instrument zones whose key range, low above high, matches nothing. */
static void deep(void) {
    naming(4000, 2600);
    for (unsigned z = 0; z <= 2600; z++) u16(&ibag, 2 * z), u16(&ibag, 0);
    for (unsigned z = 0; z < 2600; z++) gen(&igen, 43, 127), gen(&igen, 53, 0);
    gen(&igen, 0, 0);
}

/* Empty instrument zones, and one that matches at their end. */
static void wide(void) {
    naming(32, 15900);
    for (unsigned z = 0; z < 15900; z++) u16(&ibag, 0), u16(&ibag, 0);
    u16(&ibag, 1), u16(&ibag, 0), gen(&igen, 53, 0), gen(&igen, 0, 0);
}

/* What a voice gets of the bank: its window and loop in samples; how far keys lie apart, and what is added, in cents; cB; timecents, and cB of the sustain. */
typedef struct {
    int end, mode, from, to, rate, scale, cents, loss, delay, attack, hold, decay, sustain;
} Given;

static Given given = {20000, 1, 2000, 19000, 44100, 100, 0, 0, -12000, -12000, -12000, 5000, 600}; /* a decay of some 18 seconds */

static void lists(int hostile, size_t bytes) {
    unsigned n = 0;
    head("Bell", 0), head("EOP", 1);
    u16(&pbag, 0), u16(&pbag, 0), u16(&pbag, 1), u16(&pbag, 0);
    for (int i = 0; i < 10; i++) u8(&pmod, 0), u8(&imod, 0);
    gen(&pgen, 41, 0), gen(&pgen, 0, 0);
    name(&inst, "Bell"), u16(&inst, 0), name(&inst, "EOI"), u16(&inst, 1);
    for (int k = 0; k < (hostile ? 200 : 1); k++) {
        gen(&igen, 54, given.mode), n++;
        gen(&igen, 36, given.decay), n++;
        gen(&igen, 37, given.sustain), n++;
        if (hostile) gen(&igen, 51, 120), n++, gen(&igen, 58, 0), n++;
    }
    if (given.delay != -12000) gen(&igen, 33, given.delay), n++;
    if (given.attack != -12000) gen(&igen, 34, given.attack), n++;
    if (given.hold != -12000) gen(&igen, 35, given.hold), n++;
    if (given.loss) gen(&igen, 48, given.loss), n++;
    if (given.cents) gen(&igen, 51, given.cents / 100), n++, gen(&igen, 52, given.cents % 100), n++;
    if (given.scale != 100) gen(&igen, 56, given.scale), n++;
    gen(&igen, 53, 0), n++;
    u16(&ibag, 0), u16(&ibag, 0), u16(&ibag, n), u16(&ibag, 0);
    if (bytes) filled(bytes, n);
    else gen(&igen, 0, 0);
    if (hostile) sample("Bell", 0, 64, 32, 33, 50000);
    else sample("Bell", 0, (uint32_t)given.end, (uint32_t)given.from, (uint32_t)given.to, (uint32_t)given.rate);
    sample("EOS", 0, 0, 0, 0, 0);
}

static int noisy;

/* LOOP-PITCH-STAGE; whether it is one. */
static int dear(const char *kind) {
    unsigned loop;
    char pitch[8], stage[8], more;
    if (sscanf(kind, "%5u-%7[a-z]-%7[a-z]%c", &loop, pitch, stage, &more) != 3 || loop > 17000) return 0;
    int low = !strcmp(pitch, "low");
    if (low) given.cents = -12000, given.rate = 400;
    else if (!strcmp(pitch, "high")) given.cents = 12000, given.rate = 50000;
    else if (!strcmp(pitch, "one")) given.scale = 0, given.cents = 7;
    else if (strcmp(pitch, "keys")) return 0;
    if (loop == 0) given.mode = given.from = given.to = 0, given.end = 1;
    else if (loop < 17000) given.from = !low, given.to = given.end = given.from + (int)loop;
    given.delay = given.attack = given.hold = -32768;
    if (!strcmp(stage, "decay") || !strcmp(stage, "noise")) given.decay = 8000, given.sustain = 1000, given.loss = 1200;
    else if (!strcmp(stage, "attack")) given.attack = 8000, given.loss = 1200;
    else if (!strcmp(stage, "quick")) given.decay = -6555, given.sustain = 1000, given.loss = 358;
    else if (!strcmp(stage, "slow")) given.decay = -1755, given.sustain = 1000, given.loss = 1100;
    else if (!strcmp(stage, "hold")) given.hold = 5000, given.loss = 1200;
    else if (!strcmp(stage, "delay")) given.delay = 5000;
    else if (!strcmp(stage, "loud")) given.loss = 220; /* so that the sum of 32 is not held */
    else return 0;
    noisy = !strcmp(stage, "noise") || !strcmp(stage, "loud");
    lists(0, 0);
    return 1;
}

static int tone(int i) { return (int)lrint(20000 * sin(i * 0.0372) + 5000 * sin(i * 0.1937)); }

static int chance(void) {
    static uint32_t x = 1;
    int y = (int)((x = x * 1664525 + 1013904223) >> 15) - 65536;
    return y < -32768 ? -32768 : y > 32767 ? 32767 : y;
}

static void put(const char *path, const Bytes *b) {
    FILE *f = fopen(path, "wb");
    if (!f || fwrite(b->at, 1, b->n, f) != b->n || fclose(f)) fprintf(stderr, "bank: cannot write %s\n", path), exit(1);
}

int main(int argc, char **argv) {
    const char *kinds[] = {"bell", "middle", "full", "short", "deep", "wide"};
    int kind = 0;
    while (argc == 4 && kind < 6 && strcmp(argv[1], kinds[kind])) kind++;
    if (argc != 4 || (kind == 6 && !dear(argv[1])))
        return fprintf(stderr, "bank bell|middle|full|short|deep|wide|LOOP-keys|one|high|low-decay|noise|loud|attack|quick|slow|hold|delay IN SF2\n"), 2;
    if (kind == 4) deep();
    else if (kind == 5) wide();
    else if (kind < 4) lists(kind == 3, kind == 1 ? 8000 : kind == 2 ? 65536 : 0);
    chunk(&pdta, "phdr", &phdr), chunk(&pdta, "pbag", &pbag), chunk(&pdta, "pmod", &pmod), chunk(&pdta, "pgen", &pgen), chunk(&pdta, "inst", &inst);
    chunk(&pdta, "ibag", &ibag), chunk(&pdta, "imod", &imod), chunk(&pdta, "igen", &igen), chunk(&pdta, "shdr", &shdr);
    for (int i = 0; i < 20046; i++) u16(&smpl, (unsigned)(noisy ? chance() : tone(i)) & 65535);
    u32(&part, (uint32_t)pdta.n), memcpy(part.at + part.n, pdta.at, pdta.n), part.n += pdta.n;
    u32(&part, 20046), memcpy(part.at + part.n, smpl.at, smpl.n), part.n += smpl.n;
    for (size_t k = 0; k < sizeof given / sizeof given.end; k++) u32(&part, (uint32_t)(&given.end)[k]);
    put(argv[2], &part);
    word(&info, "INFO");
    Bytes *v = calloc(1, sizeof *v), *p = calloc(1, sizeof *p), *all = calloc(1, sizeof *all);
    if (!v || !p || !all) return fprintf(stderr, "bank: no memory\n"), 1;
    u16(v, 2), u16(v, 1), chunk(&info, "ifil", v);
    v->n = 0, word(v, "EMU8"), word(v, "000\0"), chunk(&info, "isng", v);
    v->n = 0, word(v, "Bell"), word(v, "\0\0\0\0"), chunk(&info, "INAM", v);
    word(&sdta, "sdta"), chunk(&sdta, "smpl", &smpl);
    word(p, "pdta"), memcpy(p->at + p->n, pdta.at, pdta.n), p->n += pdta.n;
    word(&riff, "sfbk"), chunk(&riff, "LIST", &info), chunk(&riff, "LIST", &sdta), chunk(&riff, "LIST", p);
    chunk(all, "RIFF", &riff);
    put(argv[3], all);
    return 0;
}
