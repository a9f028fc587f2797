//! Cases by chance from fixed seeds: whole banks and runs over them, and banks with bytes that were changed.

use super::bank_builder::*;
use super::chance::Chance;
use super::script::{noise, Script};
use std::ops::Range;

const RUNS: u64 = 78;
const DAMAGED: u64 = 105;

pub fn write(s: &mut Script) {
    runs(s, RUNS);
    for seed in 0..DAMAGED {
        damaged(s, seed);
    }
}

/// The first so many of the runs.
pub fn runs(s: &mut Script, count: u64) {
    for seed in 0..count {
        run(s, seed, |_| {});
    }
}

/// Runs in which each command is followed by a count of the voices that sound.
pub fn counted_runs(s: &mut Script, seeds: Range<u64>) {
    for seed in seeds {
        run(s, seed, Script::in_use);
    }
}

// Banks by chance

/// Generators whose offsets leave the loop inside its window: samples have room for two places either way.
fn generator(c: &mut Chance, preset: bool) -> Gen {
    const TIMES: [i64; 7] = [-32_768, -32_768, -12_000, -11_000, -10_000, -9_000, 0];
    let times = if preset { [0, 100, -500, 700, -20_768, 1, -1] } else { TIMES };
    match c.from(0, 21) {
        n @ 0..=3 => (33 + n as u16, c.pick(&times) as i32),
        4 | 5 => (38, c.pick(&times) as i32),
        6 => (17, c.from(-600, 600) as i32),
        7 => (37, c.pick(&[0, 40, 300, 700, 1_000, -5, 1_100])),
        8 => (39, c.from(-1_300, 1_300) as i32),
        9 => (40, c.from(-1_300, 1_300) as i32),
        10 => (48, c.from(-150, 300) as i32),
        11 => (51, c.from(-24, 24) as i32),
        12 => (52, c.from(-110, 110) as i32),
        13 => (56, c.pick(&[0, 50, 100, 110, -20, 1_200])),
        14 => (46, c.from(-1, 128) as i32),
        15 => (47, c.from(-1, 128) as i32),
        16 => (57, c.from(0, 2) as i32),
        17 => (58, c.from(-1, 128) as i32),
        18 | 19 => (54, c.from(-4, 7) as i32),
        20 => (c.from(0, 3) as u16, c.from(-2, 2) as i32),
        _ => (c.pick(&[5, 8, 15, 16, 21, 43, 44, 60]), c.from(-32_768, 32_767) as i32),
    }
}

/// A range, mostly wide.
fn range(c: &mut Chance) -> i32 {
    let ends = (c.from(0, 70), c.from(50, 127));
    (ends.0 | ends.1 << 8) as i32
}

fn generators(c: &mut Chance, preset: bool) -> Vec<Gen> {
    let mut gens = Vec::new();
    if c.once_in(3) {
        gens.push((43, range(c)));
    }
    if c.once_in(3) {
        gens.push((44, range(c)));
    }
    for _ in 0..c.from(0, 6) {
        gens.push(generator(c, preset));
    }
    gens
}

/// A list of zones: perhaps a global one, sounding ones, perhaps some that are ignored.
fn zones(c: &mut Chance, last: u16, numbers: usize) -> Vec<ZonePlan> {
    let preset = last == 41;
    let mut list = Vec::new();
    if c.once_in(2) {
        list.push(zone(&generators(c, preset)));
    }
    for _ in 0..c.pick(&[0, 1, 1, 2, 2, 3, 4, 6]) {
        let mut plan = zone_to(&generators(c, preset), last, c.from(0, numbers as i64 - 1) as i32);
        if c.once_in(6) {
            plan.gens.push(generator(c, preset));
        }
        if c.once_in(9) {
            plan.gens.pop();
        }
        plan.mods = c.pick(&[0, 0, 0, 1, 2]);
        list.push(plan);
    }
    list
}

/// A sample with a window in a memory of this length (60 or more), and a loop well inside it.
fn sample_plan(c: &mut Chance, length: i64) -> SamplePlan {
    let start = c.from(2, 20);
    let loop_start = start + c.from(4, 10);
    let loop_end = loop_start + c.from(5, 12);
    let end = (loop_end + c.from(4, 40)).min(length - 2);
    SamplePlan {
        start: start as u32,
        end: end as u32,
        loop_start: loop_start as u32,
        loop_end: loop_end as u32,
        rate: c.pick(&[400, 8_000, 22_050, 44_100, 44_100, 48_000, 50_000]),
        root: c.pick(&[60, 60, 48, 72, 0, 127, 200]),
        correction: c.from(-128, 127) as i8,
        link: c.number() as u16,
        kind: c.pick(&[1, 2, 4, 0x8001, 0x8004]),
    }
}

/// A bank of up to so many presets, instruments and samples; its first preset is of bank 0.
pub fn bank(c: &mut Chance, length: i64, most: i64) -> BankPlan {
    let count = c.from(1, most);
    let samples: Vec<SamplePlan> = (0..count).map(|_| sample_plan(c, length)).collect();
    let count = c.from(1, most);
    let instruments: Vec<_> = (0..count).map(|_| zones(c, 53, samples.len())).collect();
    let mut presets = Vec::new();
    for i in 0..c.from(1, most) as u16 {
        presets.push(PresetPlan {
            program: i,
            bank: if i == 0 { 0 } else { c.pick(&[0, 0, 0, 0, 1, 128]) },
            zones: zones(c, 41, instruments.len()),
        });
    }
    BankPlan { presets, instruments, samples }
}

// Runs by chance

/// A run of some forty commands over a bank by chance, its clock near the wrap in some; `behind` follows each of them.
fn run(s: &mut Script, seed: u64, behind: fn(&mut Script)) {
    let c = &mut Chance::new(10_000 + seed);
    let length = c.from(70, 120);
    let plan = bank(c, length, 4);
    let (ram, rom) = (noise(length as usize, seed), noise(length as usize, seed + 500));
    s.begin(&format!("run {seed}"), &plan.bytes(), &ram, &rom);
    s.fresh(c.pick(&[0, 1_000, 0xffff_ff80]));
    for channel in [0, 1, 9] {
        s.program(channel, c.from(0, plan.presets.len() as i64 - 1) as u8);
    }
    for _ in 0..c.from(25, 45) {
        command(s, c, length as u32);
        behind(s);
    }
    s.go(100);
    behind(s);
}

/// A call by chance, over memories of this length.
pub fn command(s: &mut Script, c: &mut Chance, length: u32) {
    let channel = c.pick(&[0, 0, 0, 1, 9]);
    let key = c.pick(&[40, 55, 60, 60, 61, 66, 72, 90]);
    match c.from(0, 19) {
        0..=5 => s.on(channel, key, c.from(0, 127) as u8),
        6..=7 => s.off(channel, key),
        8 => s.control(channel, c.pick(&[7, 11]), c.from(0, 127) as u8),
        9 => s.control(channel, 64, c.pick(&[0, 63, 64, 127])),
        10 => s.control(channel, c.pick(&[0, 120, 123, 1]), c.from(0, 1) as u8),
        11 => s.program(channel, c.from(0, 3) as u8),
        12 => s.bend(channel, c.from(0, 16_400) as u16),
        13 => probe(s, c, length),
        14 => s.panel(c.from(0, 33) as u8),
        _ => s.go(c.pick(&[1, 2, 5, 20, 43, 44, 60, 100, 150])),
    }
}

/// Calls that may be refused, after which the memories are as before.
fn probe(s: &mut Script, c: &mut Chance, length: u32) {
    s.cut_ram(c.from(0, length as i64) as u32);
    s.cut_rom(c.from(0, length as i64) as u32);
    s.on(0, 60, 100);
    s.ask(0, c.from(0, 4) as u32);
    s.ask(c.pick(&[4_097, 0x8000_0000, 0xffff_ffff]), 4);
    s.ask(3, c.from(0, 5) as u32);
    s.cut_ram(length);
    s.cut_rom(length);
}

// Damaged banks

/// A bank with one to four bytes changed; what is admitted all the same is struck and heard.
fn damaged(s: &mut Script, seed: u64) {
    let c = &mut Chance::new(20_000 + seed);
    let mut bytes = bank(c, 70, 2).bytes();
    for _ in 0..c.from(1, 4) {
        let place = c.from(0, bytes.len() as i64 - 1) as usize;
        bytes[place] = match c.from(0, 3) {
            0 => c.number() as u8,
            1 => bytes[place] ^ 1 << c.from(0, 7),
            2 => bytes[place].wrapping_add(1),
            _ => bytes[place].wrapping_sub(1),
        };
    }
    s.begin(&format!("damaged bank {seed}"), &bytes, &noise(70, seed), &noise(45, seed));
    s.admission();
    s.list(0);
    for key in [40, 60, 80] {
        s.on(0, key, 100);
        s.go(1);
    }
    s.go(50);
    s.off(0, 60);
    s.go(50);
}
