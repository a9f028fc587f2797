//! The sound of a casting, as samples: its strike and its hum. Divisions and shifts round down.

use super::castings::{Casting, Partial};
use super::sines::Sines;

/// The largest sample of each sound.
const TOP: i64 = 32_000;

/// 2^32 ln(1,000) / 32: divided by milliseconds, what a partial loses in a sample at 32,000 a second, in 2^-32.
const FALL_OF_60_DB: i64 = 927_143_219;

/// The strike: all partials, the clapper, no click at either end.
pub fn strike(sines: &Sines, casting: &Casting) -> Vec<i16> {
    let mut sum = vec![0; casting.strike_length];
    for partial in casting.partials {
        ring(sines, casting.cycles, partial, &mut sum);
    }
    let strength: i64 = casting.partials.iter().map(|(_, strength, _)| strength.abs()).sum();
    clap(strength << 14, casting.rise, &mut sum);
    grow(casting.rise, sum.iter_mut());
    grow(casting.strike_length / 4, sum.iter_mut().rev());
    levelled(&sum)
}

/// Adds a partial, which begins at zero and dies away.
fn ring(sines: &Sines, cycles: i64, partial: &Partial, sum: &mut [i64]) {
    let &(ratio, strength, milliseconds) = partial;
    let step = (ratio * cycles * (1 << 22) / 10_000) as u32;
    let loss = FALL_OF_60_DB / milliseconds;
    let (mut phase, mut swing) = (0u32, strength << 24);
    for sample in sum {
        *sample += sines.at(phase) * (swing >> 4) >> 35;
        phase = phase.wrapping_add(step);
        swing -= swing * loss >> 32;
    }
}

/// Adds the clapper: noise without its highest tones, which is over in a few milliseconds.
fn clap(mut hit: i64, rise: usize, sum: &mut [i64]) {
    let (mut seed, mut low) = (1u32, 0i64);
    for sample in sum.iter_mut().take(64 * rise) {
        seed = seed.wrapping_mul(1_664_525).wrapping_add(1_013_904_223);
        low += ((seed >> 16) as i64 - 32_768 - low).div_euclid(4);
        *sample += low * hit >> 16;
        hit -= hit / (4 * rise as i64);
    }
}

/// The first so many samples grow from nothing, in even steps.
fn grow<'a>(length: usize, samples: impl Iterator<Item = &'a mut i64>) {
    for (place, sample) in samples.take(length).enumerate() {
        *sample = (*sample * place as i64).div_euclid(length as i64);
    }
}

/// The samples with their largest at the top.
fn levelled(sum: &[i64]) -> Vec<i16> {
    let peak = sum.iter().map(|sample| sample.abs()).max().unwrap_or(1);
    sum.iter().map(|sample| (sample * TOP).div_euclid(peak) as i16).collect()
}

/// The samples in which a hum grows, which stand in front of its loop: 32 ms at key 51.
pub fn hum_rise(casting: &Casting) -> usize {
    10_240 / casting.cycles as usize
}

/// The hum: it grows over its loop's samples, then comes the loop, then the loop's first eight samples again.
pub fn hum(sines: &Sines, casting: &Casting) -> Vec<i16> {
    let (once, rise) = (hum_loop(sines, casting), hum_rise(casting));
    let mut samples: Vec<i64> = once.iter().cycle().take(rise + once.len() + 8).map(|sample| *sample as i64).collect();
    grow(rise, samples.iter_mut());
    samples.iter().map(|sample| *sample as i16).collect()
}

/// One turn of the hum's loop. All its tones begin at zero and rise, so it has no seam.
fn hum_loop(sines: &Sines, casting: &Casting) -> Vec<i16> {
    let turn = (1u64 << 32) / casting.loop_length as u64;
    let tone = |place: u64, cycles: i64, strength: i64| {
        let phase = (cycles as u64 * place * turn) as u32;
        strength * sines.at(phase) >> 10
    };
    let sample =
        |place: usize| casting.hum.iter().map(|(cycles, strength)| tone(place as u64, *cycles, *strength)).sum();
    let sum: Vec<i64> = (0..casting.loop_length).map(sample).collect();
    levelled(&sum)
}
