//! Strikes over the banks of the cases about layers, values, voices and chance: each preset that a channel can reach.

use super::script::{Lending, Script};
use super::{chance_cases, layer_cases, value_cases, voice_cases};
use crate::bank_admission::admit;
use std::collections::HashSet;

/// How many of the runs by chance give their banks, to keep the file small.
const RUNS: u64 = 40;

pub fn write(s: &mut Script) {
    let mut source = Script::default();
    layer_cases::write(&mut source);
    value_cases::write(&mut source);
    voice_cases::write(&mut source);
    chance_cases::runs(&mut source, RUNS);
    let mut seen = HashSet::new();
    for bank in &source.banks {
        if seen.insert(&bank.bytes) {
            strikes_of(s, bank);
        }
    }
}

/// Each preset at two strokes, those of a small bank at two more, and a preset that is not there.
fn strikes_of(script: &mut Script, lending: &Lending) {
    let Ok(bank) = admit(&lending.bytes) else {
        return;
    };
    let reachable = bank.presets.iter().filter(|p| p.program <= 127 && p.bank <= 128);
    let presets: Vec<_> = reachable.map(|p| (p.program as u8, p.bank as u8)).collect();
    let strokes = [(60, 127), (77, 90), (41, 1), (127, 64)];
    let count = if presets.len() <= 4 { 4 } else { 2 };
    script.title(&lending.case);
    script.bank(&lending.bytes);
    for &(program, number) in &presets {
        for &(key, velocity) in &strokes[..count] {
            script.hammer(program, number, key, velocity);
        }
    }
    script.hammer(126, 127, 60, 100);
}
