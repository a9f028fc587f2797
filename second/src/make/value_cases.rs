//! Cases of values: what adds, what counts in instruments only, each held total at and past its limits, times, pitch.

use super::bank_builder::*;
use super::script::{noise, Script};
use crate::tables_and_steps::tables;

pub fn write(s: &mut Script) {
    adding(s);
    instruments_only(s);
    held_totals(s);
    no_effect(s);
    times(s);
    key_times(s);
    pitch(s);
    attenuation(s);
    attenuation_and_envelope(s);
    fixed_key_and_velocity(s);
    struck_or_fixed(s);
}

/// Program p of the plan: struck at a key and velocity, rendered, and silenced.
fn strike_all(s: &mut Script, plan: &BankPlan, key: u8, velocity: u8, pieces: &[u32]) {
    for program in 0..plan.presets.len() as u8 {
        s.program(0, program);
        s.on(0, key, velocity);
        for &n in pieces {
            s.go(n);
        }
        s.silence(0);
    }
}

fn empty_plan() -> BankPlan {
    BankPlan { samples: vec![sample(0, 40)], ..BankPlan::default() }
}

/// A preset with global and local generators over an instrument with global and local generators, all quick.
fn add_four(plan: &mut BankPlan, parts: [&[Gen]; 4]) {
    let number = plan.instruments.len() as i32;
    let [instrument_global, instrument_local, preset_global, preset_local] = parts;
    plan.instruments.push(vec![zone(&quick(instrument_global)), zone_to(instrument_local, 53, 0)]);
    plan.presets.push(PresetPlan {
        program: number as u16,
        bank: 0,
        zones: vec![zone(preset_global), zone_to(preset_local, 41, number)],
    });
}

/// Instrument local, else global, else default, plus the preset's local, else global, else 0: in all sixteen ways.
fn adding(s: &mut Script) {
    for (operator, values) in
        [(17, [100, -60, 200, -150]), (52, [40, 10, -70, -9]), (48, [60, 200, 31, 77]), (56, [10, 50, -30, 20])]
    {
        let mut plan = empty_plan();
        for choice in 0..16 {
            let part = |i: usize| {
                if choice >> i & 1 == 1 {
                    vec![(operator, values[i])]
                } else {
                    vec![]
                }
            };
            let parts: Vec<Vec<Gen>> = (0..4).map(part).collect();
            add_four(&mut plan, [&parts[0], &parts[1], &parts[2], &parts[3]]);
        }
        s.begin_plan(&format!("adding: generator {operator}"), &plan, &noise(40, 40));
        strike_all(s, &plan, 67, 120, &[6]);
    }
}

/// "Generators 0-4, 12, 45, 46, 47, 50, 54, 57, 58 count in instruments only": in a preset they change nothing.
fn instruments_only(s: &mut Script) {
    let mut plan = empty_plan();
    plan.samples[0] = SamplePlan { loop_start: 8, loop_end: 20, ..sample(2, 30) };
    let own: [Gen; 13] = [
        (0, 3),
        (1, -4),
        (2, 2),
        (3, -3),
        (4, 0),
        (12, 0),
        (45, 0),
        (46, 50),
        (47, 20),
        (50, 0),
        (54, 1),
        (57, 5),
        (58, 70),
    ];
    for (operator, amount) in own {
        add_four(&mut plan, [&[(54, 1)], &[], &[], &[(operator, amount)]]);
        add_four(&mut plan, [&[(54, 1)], &[], &[(operator, amount)], &[]]);
        add_four(&mut plan, [&[(54, 1)], &[(operator, amount)], &[], &[]]);
        add_four(&mut plan, [&[(54, 1)], &[(operator, amount)], &[], &[(operator, 1)]]);
    }
    s.begin_plan("generators in instruments only", &plan, &noise(40, 41));
    strike_all(s, &plan, 60, 90, &[40]);
    let first = 4 * own.iter().position(|g| g.0 == 57).unwrap_or(0) as u8;
    let name = "generators in instruments only: classes";
    s.begin_plan(name, &plan, &noise(40, 41));
    for program in [0, 1, 2, 3, 2, 0, 3] {
        s.program(0, first + program);
        s.on(0, 60, 90);
        s.go(1);
    }
}

/// Each held total at and past its limits: by the instrument alone, and by a preset's value that leads past them.
fn held_totals(s: &mut Script) {
    let limits: [(u16, i32, i32); 5] =
        [(17, -500, 500), (37, 0, 1_000), (51, -120, 120), (52, -99, 99), (56, 0, 1_200)];
    for (operator, low, high) in limits {
        let mut plan = empty_plan();
        plan.samples[0].root = 100;
        let around = [low - 1, low, low + 1, high - 1, high, high + 1, -32_768, 32_767];
        for own in around {
            add_four(&mut plan, [&[(54, 1)], &[(operator, own)], &[], &[]]);
        }
        for (own, added) in [
            (high, 1),
            (high, -1),
            (low, -1),
            (low, 1),
            (high + 50, -51),
            (low - 50, 51),
            (32_767, 32_767),
            (-32_768, -32_768),
            (32_767, -32_768),
        ] {
            add_four(&mut plan, [&[(54, 1)], &[(operator, own)], &[], &[(operator, added)]]);
        }
        s.begin_plan(&format!("held total: {operator}"), &plan, &noise(40, 42));
        // Far from the root the pitch total stays within its own limits although the coarse tuning is at its ends.
        let keys: &[u8] = if operator == 51 { &[0, 127] } else { &[101] };
        for &key in keys {
            strike_all(s, &plan, key, 127, &[1, 5]);
        }
    }
}

/// Generators that are read and have no effect: filter, LFOs, modulation envelope, effects, unused numbers.
fn no_effect(s: &mut Script) {
    let mut plan = empty_plan();
    let without: Vec<u16> =
        (5..=11).chain(13..=16).chain(18..=32).chain([42, 49, 55, 59, 60, 61, 100, 32_768, 65_535]).collect();
    let all: Vec<Gen> = without.iter().map(|&g| (g, 777 - 31 * g as i32)).collect();
    add_four(&mut plan, [&[], &[], &[], &[]]);
    add_four(&mut plan, [&all, &[], &[], &[]]);
    add_four(&mut plan, [&[], &all, &[], &all]);
    s.begin_plan("generators without effect", &plan, &noise(40, 43));
    strike_all(s, &plan, 63, 99, &[20]);
}

/// Times of each stage at and past their limits, with what a preset adds, up to where the stage is left.
fn times(s: &mut Script) {
    let sums = [
        (-32_768, 0),
        (-32_767, 0),
        (-32_767, -1),
        (-32_768, 1),
        (-20_000, -12_768),
        (-20_000, -12_767),
        (-12_001, 0),
        (-12_000, 0),
        (-11_999, 0),
        (-12_000, 1_200),
        (-10_000, -2_001),
        (-9_601, 0),
        (-32_768, 24_000),
    ];
    for operator in [33u16, 34, 35, 36, 38] {
        let mut plan = empty_plan();
        for (own, added) in sums {
            add_four(&mut plan, [&[(54, 1), (37, 600), (operator, own)], &[], &[], &[(operator, added)]]);
        }
        s.begin_plan(&format!("times: generator {operator}"), &plan, &noise(40, 44));
        for (program, (own, added)) in sums.into_iter().enumerate() {
            let frames = tables().frames((own + added) as i64, 5_000);
            s.program(0, program as u8);
            s.on(0, 60, 127);
            if operator == 38 {
                s.go(1);
                s.off(0, 60);
                s.go(frames as u32 / 2);
                s.around(frames - frames / 2);
            } else {
                s.around(frames);
            }
            s.silence(0);
        }
    }
    long_times(s);
    longest_delay_and_hold(s);
}

/// Delay and hold past their top of 5,000 timecents, played to their ends.
fn longest_delay_and_hold(s: &mut Script) {
    let mut plan = empty_plan();
    add_four(&mut plan, [&[(54, 1), (33, 5_001)], &[], &[], &[]]);
    add_four(&mut plan, [&[(54, 1), (35, 4_000)], &[], &[], &[(35, 4_000)]]);
    s.begin_plan("times: delay and hold at their top", &plan, &noise(40, 51));
    s.on(0, 60, 127);
    s.program(0, 1);
    s.on(0, 60, 127);
    s.around(tables().frames(5_000, 5_000));
}

/// The longest times: seen by the levels of attack, decay and release, which show the number of frames early.
fn long_times(s: &mut Script) {
    let mut plan = empty_plan();
    for own in [4_999, 5_000, 5_001, 7_999, 8_000, 8_001, 32_767] {
        add_four(&mut plan, [&[(54, 1), (34, own)], &[], &[], &[]]);
        add_four(&mut plan, [&[(54, 1), (36, own), (37, 1_000)], &[], &[], &[]]);
        add_four(&mut plan, [&[(54, 1), (38, own), (37, 100)], &[], &[], &[(38, 1)]]);
    }
    s.begin_plan("times: the longest", &plan, &noise(40, 45));
    for program in 0..plan.presets.len() as u8 {
        s.program(0, program);
        s.on(0, 60, 127);
        if program % 3 == 2 {
            s.go(1);
            s.off(0, 60);
        }
        s.go(1);
        s.go(1_999);
        if program % 3 != 0 {
            s.go_far(4_000);
        }
        s.silence(0);
    }
}

/// Hold and decay add (60 - key)·39 or 40, each held to -1,200..1,200 first; the key is generator 46's where it stands.
fn key_times(s: &mut Script) {
    let own = [0, 1, -1, 100, -100, 1_199, 1_200, 1_201, -1_200, -1_201, 32_767, -32_768];
    for (time, per_key) in [(35u16, 39u16), (36, 40)] {
        let mut plan = empty_plan();
        for amount in own {
            let gens = [(54, 1), (37, 1_000), (time, -12_000), (per_key, amount)];
            add_four(&mut plan, [&gens, &[], &[], &[]]);
        }
        add_four(&mut plan, [&[(54, 1), (37, 999), (time, -12_000), (per_key, 1_190)], &[], &[], &[(per_key, 11)]]);
        add_four(&mut plan, [&[(54, 1), (37, 999), (time, -12_000), (per_key, 90), (46, 58)], &[], &[], &[]]);
        s.begin_plan(&format!("times by key: generator {per_key}"), &plan, &noise(40, 46));
        for program in 0..plan.presets.len() {
            for key in [59u8, 60, 61, 64, 56, 77] {
                let amount = own.get(program).copied().unwrap_or(1_200).clamp(-1_200, 1_200);
                let total = -12_000 + (60 - key as i64) * amount as i64;
                let frames = tables().frames(total, 5_000);
                s.program(0, program as u8);
                s.on(0, key, 127);
                s.around(frames.min(1_400));
                s.silence(0);
            }
        }
    }
}

/// The pitch total: key, root, scale, coarse, fine, correction, bend, held to -9,600..4,800.
fn pitch(s: &mut Script) {
    let mut plan = empty_plan();
    plan.samples = vec![];
    let roots: [(u8, i8, Gen); 8] = [
        (60, 0, (58, -1)),
        (127, 0, (58, -1)),
        (128, 0, (58, -1)),
        (255, 0, (58, 128)),
        (0, 127, (58, -1)),
        (40, -128, (58, 127)),
        (40, -1, (58, 0)),
        (40, 50, (58, 32_767)),
    ];
    for (i, (root, correction, own)) in roots.into_iter().enumerate() {
        plan.samples.push(SamplePlan { root, correction, ..sample(0, 40) });
        let number = plan.instruments.len() as i32;
        plan.instruments.push(vec![zone_to(&quick(&[own, (54, 1)]), 53, i as i32)]);
        plan.presets.push(PresetPlan {
            program: number as u16,
            bank: 0,
            zones: vec![zone_to(&[(51, -1), (52, 7)], 41, number)],
        });
    }
    s.begin_plan("pitch: roots and corrections", &plan, &noise(40, 47));
    for key in [0, 41, 60, 127] {
        strike_all(s, &plan, key, 127, &[12]);
    }
    pitch_limits(s);
}

/// Totals at, and one past, -9,600 and 4,800, with the bend on either side of them.
fn pitch_limits(s: &mut Script) {
    let mut plan = empty_plan();
    for (scale, coarse, fine) in [
        (100, 48, 0),
        (100, 48, -1),
        (100, 48, 1),
        (100, 46, 0),
        (100, 46, 1),
        (100, 47, 1),
        (100, -96, 0),
        (100, -96, -1),
        (100, -96, 1),
        (100, -94, 0),
        (100, -94, -1),
        (100, 120, 99),
        (100, -120, -99),
        (1_200, 0, 0),
        (0, 0, 0),
        (1, 0, 0),
    ] {
        add_four(&mut plan, [&[(54, 1), (56, scale), (51, coarse), (52, fine)], &[], &[], &[]]);
    }
    for rate in [400, 44_100, 50_000] {
        plan.samples[0].rate = rate;
        s.begin_plan(&format!("pitch: limits and bend at rate {rate}"), &plan, &noise(40, 48));
        for bend in [0, 8_191, 8_192, 8_193, 16_383] {
            s.bend(0, bend);
            strike_all(s, &plan, 60, 127, &[9]);
        }
    }
}

/// Generator 48's total is not held by itself; the whole attenuation is at least 0, and above 1,440 there is silence.
fn attenuation(s: &mut Script) {
    let mut plan = empty_plan();
    for (own, added) in [
        (0, 0),
        (1, 0),
        (-1, 0),
        (0, -120),
        (120, -120),
        (50, -120),
        (-32_768, 0),
        (-32_768, -32_768),
        (32_767, 0),
        (32_767, 32_767),
        (1_439, 0),
        (1_440, 0),
        (1_441, 0),
        (1_500, -60),
        (1_500, -59),
        (960, 480),
        (200, 0),
        (1_000, 0),
        (-23, 0),
        (-119, 0),
    ] {
        add_four(&mut plan, [&[(54, 1), (48, own)], &[], &[], &[(48, added)]]);
    }
    s.begin_plan("attenuation", &plan, &noise(40, 49));
    for (volume, expression, velocity) in
        [(127, 127, 127), (100, 127, 111), (0, 127, 127), (127, 0, 1), (64, 1, 64), (0, 0, 127), (1, 126, 2)]
    {
        s.control(0, 7, volume);
        s.control(0, 11, expression);
        strike_all(s, &plan, 60, velocity, &[7]);
    }
}

/// The envelope is added before the whole is held to at least 0: a negative total takes from it.
fn attenuation_and_envelope(s: &mut Script) {
    let mut plan = empty_plan();
    for own in [-100, -299, -300, -301, -1_500] {
        add_four(&mut plan, [&[(54, 1), (36, -12_000), (37, 300), (48, own)], &[], &[], &[]]);
    }
    s.begin_plan("attenuation and envelope", &plan, &noise(40, 52));
    for velocity in [127, 64] {
        strike_all(s, &plan, 60, velocity, &[5, 5, 5]);
    }
    for program in 0..plan.presets.len() as u8 {
        s.program(0, program);
        s.on(0, 60, 127);
        s.go(30);
        s.off(0, 60);
        s.go(10);
        s.go(40);
    }
}

/// With 46 and 47 fixed, ranges and note-off still go by the struck key and velocity, and so does taking.
fn struck_or_fixed(s: &mut Script) {
    let mut plan = empty_plan();
    let fixed = [(46, 90), (47, 120), (54, 1)];
    let at_struck: [&[Gen]; 4] = [&[(43, 0x3c3c)], &[(44, 0x3232)], &[(43, 0x5a5a)], &[(44, 0x7878)]];
    for range in at_struck {
        let gens = quick(&fixed);
        plan.strike_plan(plan.presets.len() as u16, &[], vec![zone_to(&[range, &gens].concat(), 53, 0)]);
    }
    plan.strike_plan(4, &[], vec![zone_to(&quick(&[(46, 90), (47, 1), (54, 1), (35, 5_000)]), 53, 0)]);
    plan.strike_plan(5, &[], vec![zone_to(&quick(&[(54, 1), (35, 5_000)]), 53, 0)]);
    s.begin_plan("struck or fixed key and velocity", &plan, &noise(40, 53));
    for program in 0..4 {
        s.program(0, program);
        s.on(0, 60, 50);
        s.on(0, 90, 120);
        s.off(0, 90);
        s.off(0, 60);
        s.silence(0);
    }
    for key in 0..32 {
        s.need_program(0, if key < 16 { 4 } else { 5 });
        s.on(0, key, if key < 16 { 100 } else { 50 });
    }
    s.go(1);
    for key in 60..64 {
        s.on(0, key, 80);
        s.go(1);
    }
}

/// 46 and 47 at and past their ranges; a note-off goes by the struck key.
fn fixed_key_and_velocity(s: &mut Script) {
    let mut plan = empty_plan();
    for fixed in [-32_768, -1, 0, 1, 60, 126, 127, 128, 32_767] {
        add_four(&mut plan, [&[(54, 1)], &[(46, fixed)], &[], &[]]);
        add_four(&mut plan, [&[(54, 1)], &[(47, fixed)], &[], &[]]);
        add_four(&mut plan, [&[(54, 1), (47, 99), (46, 70)], &[(47, fixed), (46, fixed)], &[], &[]]);
    }
    s.begin_plan("fixed key and velocity", &plan, &noise(40, 50));
    for program in 0..plan.presets.len() as u8 {
        s.program(0, program);
        s.on(0, 62, 80);
        s.go(12);
        s.off(0, 70);
        s.off(0, 60);
        s.off(0, 62);
        s.go(1);
        s.silence(0);
    }
}
