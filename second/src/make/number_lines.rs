//! Function values of "Tables and steps" as lines of text, over fixed lists of arguments.

use crate::tables_and_steps::{bend_cents, tables};
use crate::voice::least_attenuation;

/// The lines, in this order: steps (for each c each rate), frames (for each t with top 8,000 and then with top 5,000),
/// gains, velocities, controls, least attenuations of levels, bends. Lists begin with their single arguments.
pub fn lines() -> String {
    let parts = [steps(), frames(), gains(), attenuations(), least(), bends()];
    parts.concat()
}

/// Single arguments, then first, first + step, .. up to last.
fn list(single: &[i64], first: i64, step: usize, last: i64) -> Vec<i64> {
    let mut all = single.to_vec();
    all.extend((first..=last).step_by(step));
    all
}

fn steps() -> String {
    const CENTS: [i64; 12] = [-9_600, -9_599, -1_201, -1_200, -1_199, -1, 0, 1, 1_199, 1_200, 4_799, 4_800];
    const RATES: [u64; 10] = [400, 401, 8_000, 22_050, 44_099, 44_100, 44_101, 48_000, 49_999, 50_000];
    let mut text = String::new();
    for cents in list(&CENTS, -9_600, 97, 4_800) {
        for rate in RATES {
            text += &format!("step {cents} {rate} = {}\n", tables().step(cents, rate));
        }
    }
    text
}

fn frames() -> String {
    const TIMES: [i64; 22] = [
        -40_000, -32_769, -32_768, -32_767, -12_001, -12_000, -11_999, -1_201, -1_200, -1_199, -1, 0, 1, 1_199, 1_200,
        4_999, 5_000, 5_001, 7_999, 8_000, 8_001, 20_000,
    ];
    let mut text = String::new();
    for t in list(&TIMES, -12_000, 131, 8_000) {
        text += &format!("frames {t} = {}\n", tables().frames(t, 8_000));
        text += &format!("frames5000 {t} = {}\n", tables().frames(t, 5_000));
    }
    text
}

fn gains() -> String {
    let gains = 0..=1_445;
    gains.map(|a| format!("gain {a} = {}\n", tables().gain(a))).collect()
}

fn attenuations() -> String {
    let velocities = (1..=127).map(|v| format!("velocity {v} = {}\n", tables().velocity(v)));
    let controls = (0..=127).map(|v| format!("control {v} = {}\n", tables().control(v)));
    velocities.chain(controls).collect()
}

fn least() -> String {
    const LEVELS: [i64; 11] = [0, 1, 2, 166, 167, 168, 1_677_720, 1_677_721, 1_677_722, 16_777_215, 16_777_216];
    let levels = LEVELS.into_iter().chain((0..=97).map(|t| (1 << 24) * t / 97));
    levels.map(|l| format!("least {l} = {}\n", least_attenuation(tables(), l))).collect()
}

fn bends() -> String {
    let bends = list(&[0, 1, 8_191, 8_192, 8_193, 16_383], 0, 41, 16_383);
    bends.iter().map(|&b| format!("bend {b} = {}\n", bend_cents(b as u16))).collect()
}
