//! The four points at the edges of windows and loops, at every q, held and rounded (M-100); and attacks, fades, bends and
//! pans in short and long loops. Most renders are cut at places by chance.

use super::bank_builder::*;
use super::chance::Chance;
use super::script::{noise, Script};

pub fn write(s: &mut Script) {
    edges_of_windows(s);
    whole_memories(s);
    top_twelve_bits(s);
    every_q(s);
    held_to_both_ends(s);
    small_numbers(s);
    loops(s);
    releases(s);
    attacks(s);
    fades(s);
    bends_and_pans(s);
    loops_of_some_steps(s);
    slow_fades(s);
    all_at_once(s);
}

/// Where the windows begin.
const START: u32 = 3;

/// A window's memory. Around the window the samples are as loud as can be, so that it shows where one of them is read.
fn walled(window: &[i16]) -> Vec<i16> {
    [&[-32_768, -32_768, 32_767], window, &[-32_768, 32_767, 32_767]].concat()
}

/// A window with so many samples in front of its loop, in it and behind it.
fn looped(front: u32, length: u32, tail: u32) -> SamplePlan {
    let [loop_start, loop_end] = [START + front, START + front + length];
    SamplePlan { loop_start, loop_end, ..sample(START, loop_end + tail) }
}

/// A preset for each window, with generators behind QUICK's.
fn presets(list: impl IntoIterator<Item = (SamplePlan, Vec<Gen>)>) -> BankPlan {
    let mut plan = BankPlan::default();
    for (program, (window, gens)) in list.into_iter().enumerate() {
        plan.samples.push(window);
        plan.strike_plan(program as u16, &[], vec![zone_to(&quick(&gens), 53, program as i32)]);
    }
    plan
}

/// Samples by chance, of which the first twelve are not so loud that a reading between them would be held.
fn sounds(n: u32, seed: u64) -> Vec<i16> {
    let mut chance = Chance::new(seed);
    (0..n).map(|i| if i < 12 { chance.from(-25_000, 25_000) } else { chance.from(-32_768, 32_767) } as i16).collect()
}

/// The beginning of a case in which controls take nothing away, so that every bit of a reading shows.
fn begin(s: &mut Script, name: &str, plan: &BankPlan, ram: &[i16]) {
    s.begin_plan(&format!("four points: {name}"), plan, ram);
    s.control(0, 7, 127);
}

fn strike(s: &mut Script, program: usize, key: u8) {
    s.need_program(0, program as u8);
    s.on(0, key, 127);
}

/// So many frames, in renders by chance.
fn cut_up(s: &mut Script, frames: u32, chance: &mut Chance) {
    let mut left = frames;
    while left > 0 {
        let piece = chance.pick(&[1, 1, 2, 3, 4, 6, 7, 8, 13, 16, 31, 32, 33, 47, 63, 64, 65, 100]).min(left);
        s.go(piece);
        left -= piece;
    }
}

/// Windows of one to five samples behind a loud one, and windows between samples of others, at steps below, at and above
/// one sample, up to their ends.
fn edges_of_windows(s: &mut Script) {
    let windows = [(3, 4), (3, 5), (3, 6), (3, 7), (3, 8), (4, 6), (4, 8), (5, 6)];
    let plan = presets(windows.map(|(start, end)| (sample(start, end), vec![])));
    begin(s, "edges of windows", &plan, &walled(&[-9_000, 20_000, -30_000, 11_111, 7_000]));
    let chance = &mut Chance::new(1_000);
    for program in 0..windows.len() {
        for key in [36, 43, 48, 59, 60, 62, 67, 84, 108] {
            strike(s, program, key);
            cut_up(s, if key < 48 { 22 } else { 12 }, chance);
        }
    }
}

/// Windows that are the whole memory, or the whole of what is lent, with no sample in front of them and none behind.
fn whole_memories(s: &mut Script) {
    let plan = presets((0..15).map(|i| (sample(0, 1 + i / 3), vec![(54, [0, 1, 3][i as usize % 3])])));
    begin(s, "whole memories", &plan, &[32_767, -20_000, 9_000, 30_000, -32_768]);
    for (program, window) in plan.samples.iter().enumerate() {
        s.cut_ram(window.end);
        for key in [48, 61, 67] {
            strike(s, program, key);
            s.go(3);
            s.go(9);
            s.off(0, key);
            s.go(7);
            s.silence(0);
        }
    }
}

/// Steps of nearly one sample: q is 0 with lower bits set, 1, 2 and so on, or 4,095, 4,094 and so on. And the slowest
/// step of all, 594 units: q is 0, 1, 2 for seven frames each.
fn top_twelve_bits(s: &mut Script) {
    let rated = |rate, coarse| (SamplePlan { rate, ..looped(0, 24, 0) }, vec![(51, coarse), (54, 1)]);
    let plan = presets([rated(44_099, 0), rated(44_101, 0), rated(400, -96)]);
    begin(s, "the top twelve bits", &plan, &walled(&noise(24, 1_001)));
    let chance = &mut Chance::new(1_002);
    for program in 0..3 {
        for key in [48, 60, 72] {
            strike(s, program, key);
            cut_up(s, 80, chance);
            s.silence(0);
        }
    }
}

/// A step of 4,095 units: every q stands between two samples, from 0 up to 4,095, in loud and in small numbers.
fn every_q(s: &mut Script) {
    let plan = presets([(SamplePlan { rate: 2_756, ..looped(1, 5, 0) }, vec![(51, -96), (54, 1)])]);
    let loud = [-32_768, 32_767, 32_767, -32_768, -32_768, 32_767];
    let memories = [("loud", loud), ("small", [0, -1, 1, -2, 3, -3]), ("others", [7, -9_999, 31_000, 5, -2, 12_345])];
    for (name, window) in memories {
        begin(s, &format!("every q, {name}"), &plan, &walled(&window));
        strike(s, 0, 60);
        s.go_far(7 * 4_096);
    }
}

/// All sixteen fours of least and highest samples, and fours that come just up to an end halfway, or just past it.
fn held_to_both_ends(s: &mut Script) {
    let ends = [1, 0, 0, 0, 0, 1, 0, 0, 1, 1, 0, 1, 0, 1, 1, 1, 1].map(|high| [i16::MIN, i16::MAX][high]);
    let mut fours = Vec::new();
    for (outer, inner) in [
        (32_758, 32_767),
        (32_759, 32_767),
        (32_760, 32_767),
        (-32_766, -32_768),
        (-32_767, -32_768),
        (-32_768, -32_768),
        (-32_758, -32_767),
        (-32_759, -32_767),
        (-32_760, -32_767),
    ] {
        fours.extend([outer, inner, inner, outer]);
    }
    let plan = presets([44_100, 44_099].map(|rate| (SamplePlan { rate, ..looped(1, 16, 0) }, vec![(54, 1)])));
    begin(s, "held, least and highest samples", &plan, &walled(&ends));
    let chance = &mut Chance::new(1_003);
    for program in 0..2 {
        for key in [36, 48, 53, 60, 65] {
            strike(s, program, key);
            cut_up(s, 70, chance);
            s.silence(0);
        }
    }
    begin(s, "held, at the very ends", &presets([(looped(0, 36, 0), vec![])]), &walled(&fours));
    for key in [36, 48] {
        strike(s, 0, key);
        for _ in 0..12 {
            s.go(if key == 36 { 12 } else { 6 });
        }
    }
}

/// Quotients about 0 and about whole numbers below it: rounded down.
fn small_numbers(s: &mut Script) {
    let chance = &mut Chance::new(1_004);
    let window: Vec<i16> = (0..40).map(|_| chance.from(-2, 2) as i16).collect();
    begin(s, "small numbers", &presets([(looped(3, 37, 0), vec![(54, 1)])]), &walled(&window));
    for key in [24, 36, 47, 48, 55, 60, 67] {
        strike(s, 0, key);
        cut_up(s, 120, chance);
        s.silence(0);
    }
}

/// Loops of one to four samples, at the window's start and behind other samples, with a tail and without, at low pitch
/// and up to the highest.
fn loops(s: &mut Script) {
    let mut list = Vec::new();
    for length in 1..=4 {
        for (i, (front, tail)) in [(0, 0), (0, 3), (4, 0), (4, 3)].into_iter().enumerate() {
            let rate = [44_100, 44_099, 50_000, 31_337][(length + i) % 4];
            let mode = [1, 3][(length + i) % 2];
            list.push((SamplePlan { rate, ..looped(front, length as u32, tail) }, vec![(54, mode)]));
        }
    }
    begin(s, "short loops", &presets(list), &walled(&sounds(11, 1_005)));
    let chance = &mut Chance::new(1_006);
    for program in 0..16 {
        for key in [36, 47, 60, 66, 84, 108, 127] {
            strike(s, program, key);
            cut_up(s, 50, chance);
            s.silence(0);
        }
    }
}

/// Mode 3 folds until it is released and then reads on behind its loop, up to the window's end; mode 1 folds on.
fn releases(s: &mut Script) {
    let plan = presets((0..8).map(|i| (looped(2, 1 + i / 2, 4), vec![(38, -9_000), (54, [1, 3][i as usize % 2])])));
    begin(s, "released in short loops", &plan, &walled(&sounds(10, 1_007)));
    let chance = &mut Chance::new(1_008);
    for program in 0..8 {
        for (key, frames) in [(48, [3, 4, 5, 7, 9, 16]), (69, [0, 1, 2, 3, 6, 11])] {
            for n in frames {
                strike(s, program, key);
                s.go(n);
                s.off(0, key);
                s.go(1);
                cut_up(s, 18, chance);
                s.silence(0);
            }
        }
    }
}

/// A window, its mode, and the key that it is struck with.
type Shape = (SamplePlan, i32, u8);

/// Loops of one to four samples and a long one, at a low pitch and at the highest, the long one at a middle pitch too; a
/// long way in front of a loop; windows without a loop.
fn shapes(mode: i32) -> Vec<Shape> {
    let mut shapes = vec![(looped(2, 170, 2), mode, 61)];
    for length in [1, 2, 3, 4, 170] {
        shapes.push((looped(2, length, 2), mode, 37));
        shapes.push((SamplePlan { rate: 50_000, ..looped(1, length, 1) }, mode, 127));
    }
    shapes.extend([53, 60].map(|key| (looped(390, 7, 3), mode, key)));
    shapes.extend([(61, 47), (150, 62)].map(|(length, key)| (sample(START, START + length), 0, key)));
    shapes
}

/// With each of these both sides are rounded by themselves.
const PANS: [i32; 7] = [-500, -499, -1, 0, 1, 499, 500];

/// The generators of the shape of that number: its mode, one of the pans, and others.
fn gens_of(number: usize, mode: i32, others: &[Gen]) -> Vec<Gen> {
    [&[(54, mode), (17, PANS[number % 7])], others].concat()
}

/// A preset for each shape, and the memory of all of them.
fn begin_shapes(s: &mut Script, name: &str, shapes: &[Shape], others: &[Gen]) {
    let list = shapes.iter().enumerate();
    let plan = presets(list.map(|(i, (window, mode, _))| (*window, gens_of(i, *mode, others))));
    begin(s, name, &plan, &walled(&sounds(400, 1_009)));
}

/// An attack of 434 frames in every shape, in renders of one length.
fn attacks(s: &mut Script) {
    let shapes = shapes(3);
    begin_shapes(s, "attacks", &shapes, &[(34, -8_000)]);
    for (program, (_, _, key)) in shapes.iter().enumerate() {
        for (piece, times) in [(1, 18), (2, 13), (3, 12), (7, 11), (64, 7)] {
            strike(s, program, *key);
            (0..times).for_each(|_| s.go(piece));
            s.silence(0);
        }
    }
}

/// A decay and a release of 243 frames in every shape: some 4 cB more with each frame.
fn fades(s: &mut Script) {
    let shapes = shapes(1);
    begin_shapes(s, "decays and releases", &shapes, &[(36, -9_000), (37, 500), (38, -9_000)]);
    let chance = &mut Chance::new(1_010);
    for (program, (_, _, key)) in shapes.iter().enumerate() {
        for frames in [60, 150] {
            strike(s, program, *key);
            cut_up(s, frames, chance);
            s.off(0, *key);
            cut_up(s, 125, chance);
            s.silence(0);
        }
    }
}

/// Every pan in short loops and in a long one, with bends and a control in an attack and in the decay behind it.
fn bends_and_pans(s: &mut Script) {
    for (name, length) in [("one", 1), ("two", 2), ("three", 3), ("four", 4), ("ninety", 90)] {
        let others = [(34, -10_500), (36, -9_500), (37, 300)];
        let plan = presets((0..PANS.len()).map(|i| (looped(2, length, 2), gens_of(i, 1, &others))));
        begin(s, &format!("bends and pans in a loop of {name}"), &plan, &walled(&sounds(94, 1_011)));
        let chance = &mut Chance::new(1_012 + length as u64);
        for program in 0..PANS.len() {
            strike(s, program, chance.pick(&[31, 44, 52, 59, 70]));
            cut_up(s, 30, chance);
            for bend in [0, 16_383, 8_191, 12_345, 8_192] {
                s.bend(0, bend);
                cut_up(s, 37, chance);
            }
            s.control(0, 11, 90);
            cut_up(s, 30, chance);
            s.control(0, 11, 127);
            s.silence(0);
        }
    }
}

/// Loops that take 62 to 66 steps or about 16, 32 or 128, at several steps: in an attack of 136 frames, a decay of 109, at
/// the sustain value, and released.
fn loops_of_some_steps(s: &mut Script) {
    let stages: [Gen; 4] = [(34, -10_000), (36, -9_500), (37, 600), (38, -10_000)];
    let mut list = Vec::new();
    let mut keys = Vec::new();
    for (rate, mode) in [(44_099, 1), (44_100, 3), (44_101, 1)] {
        let samples = [15, 16, 17, 31, 32, 33, 62, 63, 64, 65, 66, 127, 128, 129];
        let mut windows: Vec<_> = samples.map(|n| (looped(5, n, 3), 60, 0, 0)).into();
        windows.extend([31, 32, 33].map(|n| (looped(0, n, 3), 48, 0, 0)));
        windows.extend([1_008, 1_024, 1_040].map(|n| (looped(2, n, 0), 108, 0, 0)));
        let slow = [(1, -72, 0), (2, -60, 0), (3, -53, 2), (4, -48, 0)];
        windows.extend(slow.map(|(n, coarse, fine)| (looped(3, n, 1), 60, coarse, fine)));
        for (window, key, coarse, fine) in windows {
            let gens = [&stages[..], &[(51, coarse), (52, fine), (54, mode)]].concat();
            list.push((SamplePlan { rate, ..window }, gens));
            keys.push(key);
        }
    }
    begin(s, "loops of some steps", &presets(list), &walled(&sounds(1_042, 1_018)));
    let chance = &mut Chance::new(1_019);
    for (program, key) in keys.into_iter().enumerate() {
        s.bend(0, chance.pick(&[8_150, 8_192, 8_192, 8_240]));
        strike(s, program, key);
        cut_up(s, 320, chance);
        s.off(0, key);
        cut_up(s, 80, chance);
        s.silence(0);
    }
}

/// Decays and releases of 15,994 and 16,003 frames in loops of one sample, of 32 and of 90: a cB more after 16 frames, and
/// now and then after 15 or 17.
fn slow_fades(s: &mut Script) {
    let mut list = Vec::new();
    for time in [-1_756, -1_755] {
        list.extend([1, 32, 90].map(|length| (looped(2, length, 2), vec![(36, time), (37, 400), (38, time), (54, 1)])));
    }
    begin(s, "slow decays and releases", &presets(list), &walled(&sounds(94, 1_022)));
    let chance = &mut Chance::new(1_023);
    for program in 0..6 {
        strike(s, program, chance.pick(&[41, 60, 73]));
        cut_up(s, 180, chance);
        s.control(0, 123, 0);
        cut_up(s, 180, chance);
        s.silence(0);
    }
}

/// Voices of all shapes in one mix, in attack, decay and release.
fn all_at_once(s: &mut Script) {
    let mut plan = BankPlan::default();
    let mut zones = Vec::new();
    for (number, (window, mode, _)) in shapes(3).into_iter().enumerate() {
        let others = [(34, -9_000), (36, -9_500), (37, 250), (38, -10_000), (48, 130)];
        plan.samples.push(window);
        zones.push(zone_to(&quick(&gens_of(number, mode, &others)), 53, number as i32));
    }
    plan.strike_plan(0, &[], zones);
    begin(s, "all at once", &plan, &walled(&sounds(400, 1_020)));
    let chance = &mut Chance::new(1_021);
    for key in [36, 90, 55] {
        strike(s, 0, key);
        cut_up(s, 90, chance);
    }
    for key in [90, 36, 55] {
        s.off(0, key);
        cut_up(s, 50, chance);
    }
}
