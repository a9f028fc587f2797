//! Gains and least attenuations at both sides of each 200 cB, where one more division by ten begins (M-105), and of 1,440.

use super::bank_builder::{one_zone, quick, sample, zone_to, BankPlan, Gen};
use super::script::Script;
use crate::tables_and_steps::tables;

pub fn write(s: &mut Script) {
    attenuations(s);
    sustains(s);
    releases_in_attack(s);
}

/// A full and a least sample, each read at once: every bit of a gain shows.
const LOUD: [i16; 4] = [32_767, -32_768, 32_767, -32_768];

/// A preset for each value of one generator.
fn presets(generator: u16, values: &[i32], others: &[Gen]) -> BankPlan {
    let mut plan = BankPlan { samples: vec![sample(0, 4)], ..BankPlan::default() };
    for (program, &value) in values.iter().enumerate() {
        let gens = quick(&[others, &[(generator, value)]].concat());
        plan.strike_plan(program as u16, &[], vec![zone_to(&gens, 53, 0)]);
    }
    plan
}

/// The whole attenuation is generator 48's total: velocity and controls take nothing away.
fn attenuations(s: &mut Script) {
    const EDGES: [i32; 30] = [
        0, 1, 198, 199, 200, 201, 398, 399, 400, 401, 599, 600, 799, 800, 999, 1_000, 1_199, 1_200, 1_399, 1_400,
        1_401, 1_438, 1_439, 1_440, 1_441, 1_442, 1_599, 1_600, 1_640, 1_641,
    ];
    s.begin_plan("gains at both sides of each 200 cB", &presets(48, &EDGES, &[(54, 1)]), &LOUD);
    s.control(0, 7, 127);
    for program in 0..EDGES.len() as u8 {
        s.program(0, program);
        s.on(0, 60, 127);
        s.go(4);
        s.silence(0);
    }
}

/// The panel tells the gain of a sustain value by itself.
fn sustains(s: &mut Script) {
    const EDGES: [i32; 14] = [0, 1, 199, 200, 201, 399, 400, 401, 599, 600, 799, 800, 998, 999];
    s.begin_plan("sustain at both sides of each 200 cB", &presets(37, &EDGES, &[(54, 1)]), &LOUD);
    for program in 0..EDGES.len() as u8 {
        s.program(0, program);
        s.on(0, 60, 127);
        s.go(2);
        s.panel(0);
        s.go(2);
        s.silence(0);
    }
}

/// An attack in which the level is a tenth of full, and a tenth of that, and so on, after some 150 frames (45 for the
/// last, where no attack is long enough), let go at each frame about there.
fn releases_in_attack(s: &mut Script) {
    for (tenth, time) in [(10, -5_853), (100, -1_867), (1_000, 2_119), (10_000, 6_105), (100_000, 7_951)] {
        let plan = one_zone(&quick(&[(34, time), (54, 1)]), sample(0, 4));
        s.begin_plan(&format!("release in an attack about a level of 1/{tenth}"), &plan, &LOUD);
        let frames = tables().frames(time as i64, 8_000) as u32 / tenth;
        for n in frames * 97 / 100..=frames * 103 / 100 + 1 {
            s.on(0, 60, 127);
            s.go(n);
            s.off(0, 60);
            s.panel(0);
            s.go(1);
            s.silence(0);
        }
    }
}
