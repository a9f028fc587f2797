/* FluidSynth on the same bank: 32 keys struck, then ROUNDS renders of 4,096 frames; reverb and chorus off.
   fluid SF2 ROUNDS ORDER: ORDER is 4 (four points) or 1 (straight lines) */
#include <fluidsynth.h>
#include <stdio.h>
#include <stdlib.h>

static float out[2][4096];

int main(int argc, char **argv) {
    int order = argc == 4 ? atoi(argv[3]) : 0;
    if (order != 1 && order != 4) return fprintf(stderr, "fluid SF2 ROUNDS 1|4\n"), 2;
    fluid_settings_t *s = new_fluid_settings();
    fluid_settings_setint(s, "synth.reverb.active", 0);
    fluid_settings_setint(s, "synth.chorus.active", 0);
    fluid_settings_setint(s, "synth.polyphony", 64);
    fluid_settings_setnum(s, "synth.sample-rate", 44100);
    fluid_synth_t *synth = new_fluid_synth(s);
    if (fluid_synth_sfload(synth, argv[1], 1) < 0) return fprintf(stderr, "fluid: cannot load %s\n", argv[1]), 1;
    fluid_synth_set_interp_method(synth, -1, order == 4 ? FLUID_INTERP_4THORDER : FLUID_INTERP_LINEAR);
    for (int k = 40; k < 72; k++) fluid_synth_noteon(synth, 0, k, 100);
    double sum = 0;
    for (int r = atoi(argv[2]); r > 0; r--) {
        fluid_synth_write_float(synth, 4096, out[0], 0, 1, out[1], 0, 1);
        sum += out[0][17] + out[1][4095];
    }
    printf("%d voices, %g\n", fluid_synth_get_active_voice_count(synth), sum);
    delete_fluid_synth(synth);
    delete_fluid_settings(s);
    return 0;
}
