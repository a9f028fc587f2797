//! Cases of "From a key to layers": presets, counts of layers, zones of each kind, ranges in every place.

use super::bank_builder::*;
use super::script::{noise, Script};

pub fn write(s: &mut Script) {
    counts(s);
    which_preset(s);
    bank_select(s);
    zone_kinds(s);
    ranges_in_places(s);
    range_edges(s);
    local_and_global_ranges(s);
    order_of_layers(s);
    instruments_that_give_nothing(s);
}

/// n sounding zones, told apart by their pan.
fn many(n: usize, last: u16) -> Vec<ZonePlan> {
    (0..n).map(|i| zone_to(&quick(&[(17, 15 * i as i32 - 240)]), last, 0)).collect()
}

/// 0, 1, 32, 33 layers and around, as preset zones times instrument zones.
fn counts(s: &mut Script) {
    let mut plan = BankPlan { samples: vec![sample(0, 16)], ..BankPlan::default() };
    let shapes = [
        (0, 0),
        (0, 5),
        (5, 0),
        (1, 1),
        (1, 31),
        (1, 32),
        (1, 33),
        (1, 40),
        (31, 1),
        (32, 1),
        (33, 1),
        (2, 16),
        (2, 17),
        (4, 8),
        (3, 11),
        (6, 6),
        (11, 3),
        (17, 2),
    ];
    for (program, (presets, zones)) in shapes.into_iter().enumerate() {
        plan.instruments.push(many(zones, 53));
        let preset_zone = zone_to(&[], 41, program as i32);
        plan.presets.push(PresetPlan { program: program as u16, bank: 0, zones: vec![preset_zone; presets] });
    }
    s.begin_plan("counts of layers", &plan, &noise(16, 30));
    for program in 0..shapes.len() as u8 {
        s.program(2, program);
        s.on(2, 60, 100);
        s.go(1);
        s.silence(2);
    }
    counts_with_ranges(s);
}

/// Forty zones of which 31 to 34 match; the search passes over those that do not.
fn counts_with_ranges(s: &mut Script) {
    let mut zones = Vec::new();
    for i in 0..40 {
        let low = if i % 5 == 4 { 60 + i } else { 0 };
        zones.push(zone_to(&[(43, 0x7f00 | low)], 53, 0));
    }
    let mut plan = one_zone(&[], sample(0, 16));
    plan.instruments[0] = zones;
    s.begin_plan("counts of layers by key", &plan, &noise(16, 31));
    for key in [0, 63, 64, 68, 69, 73, 74, 79, 127] {
        s.on(0, key, 100);
        s.silence(0);
    }
}

/// The first phdr record with bank and program; numbers out of reach are never played.
fn which_preset(s: &mut Script) {
    let mut plan = BankPlan { samples: vec![sample(0, 16)], ..BankPlan::default() };
    let pairs = [
        (0, 0),
        (0, 0),
        (1, 0),
        (0, 1),
        (5, 128),
        (5, 127),
        (5, 0),
        (128, 0),
        (0, 256),
        (0, 129),
        (127, 127),
        (0, 128),
    ];
    for (i, (program, bank)) in pairs.into_iter().enumerate() {
        plan.instruments.push(many(i + 1, 53));
        plan.presets.push(PresetPlan { program, bank, zones: vec![zone_to(&[], 41, i as i32)] });
    }
    s.begin_plan("which preset", &plan, &noise(16, 32));
    for channel in [0, 9, 15] {
        for bank in [0, 1, 127] {
            s.control(channel, 0, bank);
            for program in [0, 1, 5, 127] {
                s.program(channel, program);
                s.on(channel, 60, 100);
                s.silence(channel);
            }
        }
    }
}

/// Control 0 stores a bank that the next program change takes, and stays stored; channel 9 stands at 128.
fn bank_select(s: &mut Script) {
    let mut plan = BankPlan { samples: vec![sample(0, 16)], ..BankPlan::default() };
    for (i, (program, bank)) in [(0, 0), (0, 3), (1, 3), (0, 128), (1, 128)].into_iter().enumerate() {
        plan.instruments.push(many(i + 1, 53));
        plan.presets.push(PresetPlan { program, bank, zones: vec![zone_to(&[], 41, i as i32)] });
    }
    s.begin_plan("bank select", &plan, &noise(16, 33));
    for channel in [4, 9] {
        s.on(channel, 60, 100);
        s.control(channel, 0, 3);
        s.on(channel, 60, 100);
        s.control(channel, 32, 1);
        s.program(channel, 0);
        s.on(channel, 60, 100);
        s.program(channel, 1);
        s.on(channel, 60, 100);
        s.control(channel, 0, 7);
        s.control(channel, 0, 0);
        s.on(channel, 60, 100);
        s.program(channel, 1);
        s.on(channel, 60, 100);
        s.program(channel, 0);
        s.on(channel, 60, 100);
        s.control(channel, 0, 128);
        s.silence(channel);
    }
    s.on(5, 60, 100);
}

/// A strike of program `program`, some frames, silence.
fn strike(s: &mut Script, program: u8, key: u8, velocity: u8, frames: u32) {
    s.program(0, program);
    s.on(0, key, velocity);
    s.go(frames);
    s.silence(0);
}

/// A plan with one sample and instrument 0, to which lists of zones are added as programs, on one side or the other.
fn side_plan(last: u16, instrument: Vec<ZonePlan>, lists: Vec<Vec<ZonePlan>>) -> BankPlan {
    let mut plan = BankPlan { samples: vec![sample(0, 16)], instruments: vec![instrument], ..BankPlan::default() };
    for (program, zones) in lists.into_iter().enumerate() {
        let own = if last == 53 {
            plan.instruments.push(zones);
            vec![zone_to(&[], 41, program as i32 + 1)]
        } else {
            zones
        };
        plan.presets.push(PresetPlan { program: program as u16, bank: 0, zones: own });
    }
    plan
}

/// Lists of zones: global, ignored and repeated ones, repeated generators, generators behind the last one that counts.
fn zone_lists(last: u16) -> Vec<Vec<ZonePlan>> {
    let other = if last == 53 { 41 } else { 53 };
    let sound = |gens: &[Gen]| zone_to(gens, last, 0);
    vec![
        vec![],
        vec![zone(&[])],
        vec![zone(&[(48, 50)])],
        vec![zone(&[]), sound(&[])],
        vec![zone(&[(48, 50)]), sound(&[])],
        vec![zone(&[(48, 50), (48, 70)]), sound(&[])],
        vec![zone(&[(48, 50)]), sound(&[(48, 20)])],
        vec![zone(&[(48, 50)]), sound(&[(48, 0)])],
        vec![zone(&[(48, 50)]), sound(&[(48, 20), (48, 30)])],
        vec![zone(&[(48, 50)]), zone(&[(48, 90)]), sound(&[])],
        vec![zone(&[(48, 50)]), zone(&[(48, 90)])],
        vec![sound(&[(48, 20)]), zone(&[(48, 50)])],
        vec![sound(&[(48, 20)]), zone(&[(48, 50)]), sound(&[])],
        vec![sound(&[]), sound(&[(48, 50)])],
        vec![zone(&[(48, 50)]), sound(&[]), zone(&[(48, 90)]), sound(&[(17, 80)])],
        vec![zone(&[(last, 0), (48, 50)]), sound(&[])],
        vec![zone(&[(48, 20), (last, 0), (48, 50), (17, 99), (last, 0)])],
        vec![zone(&[(other, 0), (48, 20)]), sound(&[])],
        vec![zone(&[(other, 0)]), sound(&[(other, 7), (48, 20)])],
    ]
}

/// Zones of each kind, on the instrument's side and on the preset's.
fn zone_kinds(s: &mut Script) {
    for (side, last, frames) in [("instrument", 53, 100), ("preset", 41, 8)] {
        let instrument = vec![zone(&quick(&[])), zone_to(&[(48, 5)], 53, 0)];
        let plan = side_plan(last, instrument, zone_lists(last));
        s.begin_plan(&format!("zones of each kind: {side}"), &plan, &noise(16, 34));
        for program in 0..plan.presets.len() as u8 {
            strike(s, program, 60, 127, frames);
        }
    }
}

/// Lists of generators in front of 41 or 53, with key ranges 60..64 and velocity ranges 50..90 in every place.
fn range_places() -> Vec<Vec<Gen>> {
    const KEY: Gen = (43, 0x403c);
    const VEL: Gen = (44, 0x5a32);
    const KEY_TWO: Gen = (43, 0x7f00);
    const VEL_TWO: Gen = (44, 0x7f00);
    const OTHER: Gen = (48, 0);
    vec![
        vec![],
        vec![KEY],
        vec![VEL],
        vec![KEY, VEL],
        vec![VEL, KEY],
        vec![OTHER, KEY],
        vec![OTHER, VEL],
        vec![OTHER, KEY, VEL],
        vec![KEY, OTHER, VEL],
        vec![VEL, OTHER, KEY],
        vec![KEY, KEY_TWO],
        vec![KEY_TWO, KEY],
        vec![VEL, VEL_TWO],
        vec![VEL_TWO, VEL],
        vec![KEY, VEL, VEL_TWO],
        vec![KEY, VEL_TWO, VEL],
        vec![KEY, KEY_TWO, VEL],
        vec![KEY_TWO, VEL, KEY],
        vec![VEL, KEY, VEL_TWO],
    ]
}

/// "A key range counts only as first generator; a velocity range as first, or as second behind a key range."
/// In a local zone and in a global one, on both sides.
fn ranges_in_places(s: &mut Script) {
    for (last, side) in [(53, "instrument"), (41, "preset")] {
        for (global, kind) in [(false, "local"), (true, "global")] {
            let zones = |gens: Vec<Gen>| {
                if global {
                    vec![zone(&gens), zone_to(&[], last, 0)]
                } else {
                    vec![zone_to(&gens, last, 0)]
                }
            };
            let lists = range_places().into_iter().map(zones).collect();
            let plan = side_plan(last, vec![zone_to(&[], 53, 0)], lists);
            s.begin_plan(&format!("ranges in places: {side}, {kind}"), &plan, &noise(16, 35));
            for program in 0..plan.presets.len() as u8 {
                s.program(0, program);
                for (key, velocity) in [(62, 70), (62, 100), (20, 70), (20, 100)] {
                    s.on(0, key, velocity);
                }
                s.silence(0);
            }
        }
    }
}

/// Both ends of a range, ranges turned round, and bytes above 127.
fn range_edges(s: &mut Script) {
    let ranges =
        [(60, 64), (60, 60), (64, 60), (0, 0), (127, 127), (0, 127), (0, 255), (128, 255), (255, 0), (100, 200)];
    for operator in [43u16, 44] {
        let mut plan = BankPlan { samples: vec![sample(0, 16)], ..BankPlan::default() };
        for (program, (low, high)) in ranges.into_iter().enumerate() {
            let range = (operator, low | high << 8);
            plan.strike_plan(program as u16, &[], vec![zone_to(&[range], 53, 0)]);
        }
        s.begin_plan(&format!("range edges: {operator}"), &plan, &noise(16, 36));
        for program in 0..ranges.len() as u8 {
            s.program(0, program);
            for value in [1, 59, 60, 64, 65, 99, 100, 126, 127] {
                if operator == 43 {
                    s.on(0, value, 64);
                } else {
                    s.on(0, 64, value);
                }
            }
            s.on(0, 0, 1);
            s.silence(0);
        }
    }
}

/// A local range replaces the global one, key and velocity each by itself, wider or narrower.
fn local_and_global_ranges(s: &mut Script) {
    let globals: [&[Gen]; 3] = [&[(43, 0x403c)], &[(44, 0x5a32)], &[(43, 0x403c), (44, 0x5a32)]];
    let locals: [&[Gen]; 5] =
        [&[], &[(43, 0x7f00)], &[(44, 0x7f00)], &[(43, 0x3e3e), (44, 0x4646)], &[(48, 1), (43, 0x7f00)]];
    let mut plan =
        BankPlan { samples: vec![sample(0, 16)], instruments: vec![vec![zone_to(&[], 53, 0)]], ..BankPlan::default() };
    for global in globals {
        for local in locals {
            let number = plan.instruments.len() as i32;
            plan.instruments.push(vec![zone(global), zone_to(local, 53, 0)]);
            let program = plan.presets.len() as u16;
            plan.presets.push(PresetPlan { program, bank: 0, zones: vec![zone_to(&[], 41, number)] });
            plan.presets.push(PresetPlan {
                program: program + 1,
                bank: 0,
                zones: vec![zone(global), zone_to(local, 41, 0)],
            });
        }
    }
    s.begin_plan("local and global ranges", &plan, &noise(16, 37));
    for program in 0..plan.presets.len() as u8 {
        s.program(0, program);
        for (key, velocity) in [(62, 70), (62, 100), (20, 70), (20, 100), (61, 70)] {
            s.on(0, key, velocity);
        }
        s.silence(0);
    }
}

/// Layers come in file order of preset zones, and within each of instrument zones: seen by a different delay in each.
fn order_of_layers(s: &mut Script) {
    let mut plan = BankPlan { samples: vec![sample(0, 16)], ..BankPlan::default() };
    for base in [0, 3] {
        let zones = (0..3).map(|i| zone_to(&[(33, -11_000 + 600 * (base + (i * 2) % 3)), (54, 1)], 53, 0));
        plan.instruments.push(zones.collect());
    }
    let zones = [1, 0, 1].map(|number| zone_to(&[(33, 200 * number)], 41, number));
    plan.presets.push(PresetPlan { program: 0, bank: 0, zones: zones.to_vec() });
    s.begin_plan("order of layers", &plan, &noise(16, 38));
    s.on(0, 60, 100);
    for _ in 0..40 {
        s.go(20);
    }
}

/// Instruments that are named by several preset zones, some with no zone that matches the key or the velocity: those give
/// no layer each time they are named, and the others give theirs each time.
fn instruments_that_give_nothing(s: &mut Script) {
    let mut plan = BankPlan { samples: vec![sample(0, 16)], ..BankPlan::default() };
    let ranges: [&[Gen]; 4] = [&[(43, 0x3b00)], &[(43, 0x7f3c)], &[(44, 0x7f40)], &[(43, 0x0a14)]];
    for range in ranges {
        let zones = [-50, 50].map(|pan| zone_to(&[range, &quick(&[(17, pan)])].concat(), 53, 0));
        plan.instruments.push(zones.to_vec());
    }
    for (program, numbers) in [[0, 0, 1, 0, 2, 1, 3, 2], [3, 2, 2, 0, 1, 0, 1, 3]].into_iter().enumerate() {
        let zones = (0..).zip(numbers).map(|(i, number)| zone_to(&[(17, 40 * i - 140)], 41, number));
        plan.presets.push(PresetPlan { program: program as u16, bank: 0, zones: zones.collect() });
    }
    s.begin_plan("instruments that give nothing", &plan, &noise(16, 39));
    for program in [0, 1] {
        for (key, velocity) in [(40, 20), (60, 20), (59, 64), (60, 100)] {
            strike(s, program, key, velocity, 4);
        }
    }
}
