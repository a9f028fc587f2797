//! How many voices sound: from none to all 32 slots, through every way in which a voice begins and ends.

use super::bank_builder::*;
use super::chance_cases;
use super::key_cases;
use super::script::{noise, Script};
use std::ops::Range;

/// The seeds of the runs by chance in which each command is followed by a count.
const SEEDS: Range<u64> = 78..90;

pub fn write(s: &mut Script) {
    chords(s);
    pedal(s);
    ends(s);
    classes(s);
    refusals(s);
    chance_cases::counted_runs(s, SEEDS);
}

/// A strike of so many layers, counted before the next frame and behind it.
fn chord(s: &mut Script, layers: u8, key: u8) {
    key_cases::chord(s, layers, 0, key, 100);
    s.in_use();
    s.go(1);
    s.in_use();
}

/// Before the first strike, then each number of layers by itself, and past 32 by taking.
fn chords(s: &mut Script) {
    key_cases::begin(s, "count: each number of layers");
    s.in_use();
    for layers in 1..=32 {
        chord(s, layers, 60);
        s.silence(0);
        s.in_use();
    }
    key_cases::begin(s, "count: one more each time, and past 32");
    for key in 0..34 {
        chord(s, 1, key);
    }
    chord(s, 32, 40);
    s.fresh(7);
    s.in_use();
}

/// A voice that is marked or released sounds; it counts until a frame frees it.
fn pedal(s: &mut Script) {
    key_cases::begin(s, "count: pedal and release");
    s.control(0, 64, 127);
    chord(s, 5, 60);
    chord(s, 3, 61);
    for key in [60, 61] {
        s.off(0, key);
        s.in_use();
    }
    s.control(0, 64, 0);
    s.in_use();
    for _ in 0..8 {
        s.go(200);
        s.in_use();
    }
}

/// Voices whose windows end one behind the other, frame by frame.
fn ends(s: &mut Script) {
    let mut plan = BankPlan { samples: (1..=6).map(|n| sample(0, n)).collect(), ..BankPlan::default() };
    let zones = (0..6).map(|n| zone_to(&quick(&[(35, 5_000)]), 53, n)).collect();
    plan.strike_plan(0, &[], zones);
    s.begin_plan("count: windows that end", &plan, &noise(6, 91));
    s.on(0, 60, 100);
    s.in_use();
    for _ in 0..8 {
        s.go(1);
        s.in_use();
    }
}

/// Classes: the voices that a strike cuts are gone when it is counted.
fn classes(s: &mut Script) {
    let mut plan = BankPlan { samples: vec![sample(0, 16)], ..BankPlan::default() };
    for (program, class) in [(0, 1), (1, 1), (2, 2)] {
        let layer = zone_to(&quick(&[(54, 1), (57, class)]), 53, 0);
        plan.strike_plan(program, &[], vec![layer; 3 + program as usize]);
    }
    s.begin_plan("count: classes", &plan, &noise(16, 92));
    for program in [0, 1, 2, 2, 0, 1] {
        s.program(0, program);
        s.on(0, 60, 100);
        s.in_use();
        s.go(1);
    }
}

/// Calls that are refused leave the count.
fn refusals(s: &mut Script) {
    key_cases::begin(s, "count: refusals");
    chord(s, 7, 60);
    s.on(0, 128, 100);
    s.in_use();
    s.program(0, 100);
    s.on(0, 61, 100);
    s.in_use();
    s.cut_ram(15);
    s.on(1, 62, 100);
    s.in_use();
    s.ask(1, 2);
    s.in_use();
    s.cut_ram(16);
    s.bank(&[]);
    s.on(0, 63, 100);
    s.in_use();
    s.go(1);
    s.in_use();
}
