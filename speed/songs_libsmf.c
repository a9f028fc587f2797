/* The songs of speed/songs.c by libsmf, a reader that others wrote: it loads the file, each event into memory of its own, and hands them out.
   Standard input and the line that is printed are the same; libsmf gives ticks, which are summed times the tempo here. */
#include <smf.h>
#include <stdint.h>
#include <stdio.h>
#include <stdlib.h>

static uint8_t file[66000];
static uint32_t count, sum;

static uint32_t u32(void) {
    uint32_t x = 0;
    for (int k = 0; k < 4; k++) x |= (uint32_t)getchar() << 8 * k;
    return x;
}

// Gives the memory back. The events go first: smf_delete alone takes time with the square of their number.
static void release(smf_t *song) {
    smf_track_t *track = smf_get_track_by_number(song, 1);
    for (unsigned k = 0; k < track->events_array->len; k++) {
        smf_event_t *e = g_ptr_array_index(track->events_array, k);
        free(e->midi_buffer);
        free(e);
    }
    g_ptr_array_set_size(track->events_array, 0);
    track->number_of_events = 0;
    smf_delete(song);
}

static void round_of(uint32_t length) {
    smf_t *song = smf_load_from_memory(file, length);
    if (!song) return;
    smf_rewind(song);
    uint64_t passed = 0, tempo = 500000, division = song->ppqn;
    count = 0;
    for (smf_event_t *e = smf_get_next_event(song); e; e = smf_get_next_event(song)) {
        const uint8_t *b = e->midi_buffer;
        passed += e->delta_time_pulses * tempo;
        if (b[0] == 0xff && b[1] == 0x51) tempo = b[3] << 16 | b[4] << 8 | b[5];
        if (b[0] >= 0xf0) continue;
        count++;
        sum += passed * 44100 / (division * 1000000);
        for (int k = 0; k < e->midi_buffer_length; k++) sum += b[k];
    }
    release(song);
}

int main(void) {
    uint32_t rounds = u32(), length = u32();
    if (length > sizeof file || fread(file, 1, length, stdin) != length) return fprintf(stderr, "songs_libsmf: the file is cut off or too long\n"), 2;
    for (uint32_t r = 0; r < rounds; r++) round_of(length);
    printf("0 %u %u\n", count, sum);
    return 0;
}
