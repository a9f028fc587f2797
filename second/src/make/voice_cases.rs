//! Cases of "A voice, frame by frame": stages, release in each of them, modes and loops, memories, rounding, the mix.

use super::bank_builder::*;
use super::script::{noise, Script};
use crate::tables_and_steps::tables;

pub fn write(s: &mut Script) {
    envelope(s);
    stages_of_no_frames(s);
    sustain_values(s);
    release_in_every_stage(s);
    release_in_slow_attack(s);
    release_lengths(s);
    modes(s);
    mode_three_release(s);
    short_loops(s);
    one_sample_windows(s);
    ends_of_windows(s);
    memories(s);
    coarse_offsets(s);
    rounding(s);
    run_examples(s);
    mix_is_held(s);
    controls_at_the_frame(s);
    cuts(s);
}

/// All six stages, frame by frame around each change.
fn envelope(s: &mut Script) {
    let gens = [(33, -12_000), (34, -11_500), (35, -11_000), (36, -10_500), (37, 400), (38, -10_000), (54, 1)];
    s.begin_plan("envelope: all stages", &one_zone(&gens, sample(0, 16)), &noise(16, 60));
    s.on(0, 60, 100);
    for timecents in [-12_000, -11_500, -11_000] {
        s.around(tables().frames(timecents, 5_000) - 3);
    }
    s.around(tables().frames(-10_500, 8_000) * 2 / 5);
    s.go(9);
    s.off(0, 60);
    s.around(tables().frames(-10_000, 8_000) * 3 / 5);
    s.go(2);
}

/// Delay, attack, hold and decay of no frames or of some, in all sixteen ways.
fn stages_of_no_frames(s: &mut Script) {
    let mut plan = BankPlan { samples: vec![sample(0, 16)], ..BankPlan::default() };
    for choice in 0..16 {
        let time = |i: i32| {
            if choice >> i & 1 == 1 {
                -12_000
            } else {
                -32_768
            }
        };
        let mut gens: Vec<Gen> = (0..4).map(|i| (33 + i as u16, time(i))).collect();
        gens.extend([(37, 90), (54, 1)]);
        plan.strike_plan(choice as u16, &[], vec![zone_to(&gens, 53, 0)]);
    }
    s.begin_plan("envelope: stages of no frames", &plan, &noise(16, 61));
    for program in 0..16 {
        s.program(0, program);
        s.on(0, 60, 100);
        for n in [1, 1, 1, 40, 1, 1, 40, 1, 1, 1, 40, 1, 1, 1] {
            s.go(n);
        }
        s.silence(0);
    }
}

/// Sustain 0, 1, 999 and 1,000, behind a decay of no frames and of some.
fn sustain_values(s: &mut Script) {
    let mut plan = BankPlan { samples: vec![sample(0, 16)], ..BankPlan::default() };
    for decay in [-32_768, -12_000] {
        for sustain in [0, 1, 23, 24, 500, 999, 1_000, 1_440] {
            let gens = quick(&[(36, decay), (37, sustain), (54, 1)]);
            let program = plan.presets.len() as u16;
            plan.strike_plan(program, &[], vec![zone_to(&gens, 53, 0)]);
        }
    }
    s.begin_plan("envelope: sustain values", &plan, &noise(16, 62));
    for program in 0..16 {
        s.program(0, program);
        s.on(0, 60, 127);
        for n in [1, 1, 1, 1, 37, 1, 1, 1, 1, 1] {
            s.go(n);
        }
        s.off(0, 60);
        s.go(1);
        s.silence(0);
    }
}

/// A release after each number of frames from 0 up to well into sustain, looked at in the frames behind it.
fn release_in_every_stage(s: &mut Script) {
    let all = [(33, -12_000), (34, -12_000), (35, -12_000), (36, -12_000), (37, 700), (54, 1)];
    for (name, release) in [("of no frames", -32_768), ("of some frames", -12_000)] {
        let gens = [&all[..], &[(38, release)]].concat();
        let plan = one_zone(&gens, sample(0, 16));
        s.begin_plan(&format!("release {name} in every stage"), &plan, &noise(16, 63));
        let early = [0, 1, 42, 43, 44, 45, 64, 85, 86, 87, 88, 128, 129, 130, 131, 132, 150, 158, 159, 160, 161, 175];
        for n in early {
            s.on(0, 60, 127);
            s.go(n);
            s.off(0, 60);
            for piece in [0, 1, 1, 11, 30, 1] {
                s.go(piece);
            }
            s.silence(0);
        }
    }
    let plan = one_zone(&quick(&[]), sample(0, 16));
    s.begin_plan("release in a delay of no frames", &plan, &noise(16, 64));
    s.on(0, 60, 127);
    s.off(0, 60);
    s.go(0);
    s.go(1);
}

/// The least a whose gain is at most the level, 1,000 if above that: levels of a slow attack around 167.
fn release_in_slow_attack(s: &mut Script) {
    let plan = one_zone(&quick(&[(34, 8_000), (38, -12_000), (54, 1)]), sample(0, 16));
    s.begin_plan("release in a slow attack", &plan, &noise(16, 65));
    for n in [1, 2, 43, 44, 45, 46, 60, 400, 4_000] {
        s.on(0, 60, 127);
        s.go(n);
        s.off(0, 60);
        s.go(0);
        s.go(1);
        s.go(1);
        s.silence(0);
    }
    let plan = one_zone(&quick(&[(34, -8_000), (54, 1)]), sample(0, 16));
    s.begin_plan("release in an attack of 434 frames", &plan, &noise(16, 65));
    for n in (1..434).step_by(27).chain([432, 433, 434, 435]) {
        s.on(0, 60, 127);
        s.go(n);
        s.off(0, 60);
        s.go(1);
        s.silence(0);
    }
}

/// "A released voice is free after at most N + 1 rendered frames": just so where the release begins at 0 cB.
fn release_lengths(s: &mut Script) {
    let mut plan = BankPlan { samples: vec![sample(0, 16)], ..BankPlan::default() };
    let times = [-32_768, -12_000, -11_999, -10_000, -7_000];
    for (program, time) in times.into_iter().enumerate() {
        let gens = quick(&[(38, time), (54, 1)]);
        plan.strike_plan(program as u16, &[], vec![zone_to(&gens, 53, 0)]);
    }
    s.begin_plan("release: lengths", &plan, &noise(16, 66));
    for (program, time) in times.into_iter().enumerate() {
        s.program(0, program as u8);
        s.on(0, 60, 127);
        s.go(2);
        s.off(0, 60);
        s.around(tables().frames(time as i64, 8_000));
    }
}

/// A window 2..22 with a loop 7..13 in it, in every mode, at several pitches, released or not.
fn modes(s: &mut Script) {
    let mut plan =
        BankPlan { samples: vec![SamplePlan { loop_start: 7, loop_end: 13, ..sample(2, 22) }], ..BankPlan::default() };
    for mode in [0, 1, 2, 3, 4, 5, 6, 7, -1, -2, -3, -4, 32_766, -32_765] {
        let program = plan.presets.len() as u16;
        plan.strike_plan(program, &[], vec![zone_to(&quick(&[(54, mode)]), 53, 0)]);
    }
    s.begin_plan("modes", &plan, &noise(24, 67));
    for program in 0..plan.presets.len() as u8 {
        for key in [36, 60, 71, 95] {
            s.program(0, program);
            s.on(0, key, 127);
            for n in [1, 9, 10, 1, 1, 5] {
                s.go(n);
            }
            s.off(0, key);
            for n in [1, 6, 20] {
                s.go(n);
            }
            s.silence(0);
        }
    }
}

/// Mode 3 released at each frame: in front of the loop, in it, at its last sample, after folds, with a tail and without.
fn mode_three_release(s: &mut Script) {
    for (name, end) in [("with a tail", 16), ("loop up to the end", 12)] {
        let plan = SamplePlan { loop_start: 6, loop_end: 12, ..sample(3, end) };
        let gens = quick(&[(54, 3), (38, -12_000)]);
        s.begin_plan(&format!("mode 3 released: {name}"), &one_zone(&gens, plan), &noise(20, 68));
        for key in [53, 60, 67, 84] {
            for n in 0..18 {
                s.on(0, key, 127);
                s.go(n);
                s.off(0, key);
                s.go(1);
                s.go(1);
                s.go(12);
                s.silence(0);
            }
        }
    }
}

/// Loops shorter than the step: several folds in one frame, with places between samples.
fn short_loops(s: &mut Script) {
    for length in [1, 2, 3, 5, 7] {
        for from in [0, 4] {
            let mut plan = BankPlan::default();
            for (i, rate) in [44_100, 50_000, 48_000].into_iter().enumerate() {
                plan.samples.push(SamplePlan {
                    loop_start: 2 + from,
                    loop_end: 2 + from + length,
                    rate,
                    ..sample(2, 14)
                });
                let gens = quick(&[(54, 1 + 2 * (i as i32 % 2))]);
                plan.strike_plan(i as u16, &[], vec![zone_to(&gens, 53, i as i32)]);
            }
            let name = format!("loop of {length} from {from}");
            s.begin_plan(&name, &plan, &noise(16, 69));
            for program in 0..3 {
                for key in [60, 83, 97, 108, 127] {
                    s.program(0, program);
                    s.on(0, key, 127);
                    s.go(1);
                    s.go(30);
                    s.silence(0);
                }
            }
        }
    }
}

/// Windows of one sample: read towards 0 where it does not loop, towards itself where it does.
fn one_sample_windows(s: &mut Script) {
    let mut plan = BankPlan { samples: vec![sample(3, 4)], ..BankPlan::default() };
    for mode in 0..4 {
        plan.strike_plan(mode as u16, &[], vec![zone_to(&quick(&[(54, mode)]), 53, 0)]);
    }
    s.begin_plan("windows of one sample", &plan, &noise(4, 70));
    for program in 0..4 {
        for key in [12, 36, 48, 59, 60, 61, 108] {
            s.program(0, program);
            s.on(0, key, 127);
            for n in [1, 1, 1, 1, 5, 20] {
                s.go(n);
            }
            s.off(0, key);
            s.go(1);
            s.go(20);
            s.silence(0);
        }
    }
}

/// A voice that does not loop is read to its last sample and is freed when its place is at or past the end.
fn ends_of_windows(s: &mut Script) {
    let plan = one_zone(&quick(&[]), sample(4, 12));
    s.begin_plan("ends of windows", &plan, &noise(12, 71));
    for key in [24, 48, 55, 60, 64, 72, 84, 96, 108, 120] {
        s.on(0, key, 127);
        for _ in 0..12 {
            s.go(1);
        }
        s.go(90);
        s.silence(0);
    }
}

/// RAM and ROM by bit 15 of the type, whatever the other bits; read as they are lent to each render.
fn memories(s: &mut Script) {
    let mut plan = BankPlan::default();
    for kind in [1, 2, 4, 8, 0, 0x7fff, 0x8001, 0x8002, 0x8004, 0x8008, 0x8000, 0xffff] {
        let program = plan.presets.len() as u16;
        plan.samples.push(SamplePlan { kind, ..sample(1, 9) });
        plan.strike_plan(program, &[], vec![zone_to(&quick(&[(54, 1)]), 53, program as i32)]);
    }
    s.begin("memories", &plan.bytes(), &noise(10, 72), &noise(10, 73));
    for program in 0..plan.presets.len() as u8 {
        s.program(0, program);
        s.on(0, 62, 127);
        s.go(20);
        s.silence(0);
    }
    s.program(0, 0);
    s.on(0, 60, 127);
    s.program(0, 6);
    s.on(0, 60, 127);
    s.go(4);
    s.ram(&noise(12, 74));
    s.go(4);
    s.rom(&noise(9, 75));
    s.go(4);
}

/// Coarse offsets: back from far places into a small memory, and forward into a long one.
fn coarse_offsets(s: &mut Script) {
    let far = |steps: u32, place: u32| 32_768 * steps + place;
    let plan = SamplePlan { loop_start: far(3, 6), loop_end: far(4, 11), ..sample(far(1, 2), far(2, 20)) };
    let mut bank = one_zone(&quick(&[(4, -1), (12, -2), (45, -3), (50, -4), (54, 1)]), plan);
    let offsets = [(4, -1), (12, -2), (45, -3), (50, -4), (0, 3), (1, -5), (2, -1), (3, 2), (54, 3)];
    bank.strike_plan(1, &[], vec![zone_to(&quick(&offsets), 53, 0)]);
    s.begin_plan("coarse offsets back", &bank, &noise(20, 76));
    for program in 0..2 {
        s.program(0, program);
        s.on(0, 59, 127);
        s.go(40);
        s.off(0, 59);
        s.go(20);
        s.silence(0);
    }
    let plan = SamplePlan { loop_start: 4, loop_end: 9, ..sample(2, 12) };
    let bank = one_zone(&quick(&[(4, 1), (12, 1), (45, 1), (50, 1), (54, 1)]), plan);
    let mut ram = vec![0; 32_768];
    ram.extend(noise(12, 77));
    s.begin_plan("coarse offsets forward", &bank, &ram);
    s.on(0, 61, 127);
    s.go(40);
    s.cut_ram(32_768 + 11);
    s.on(0, 61, 127);
    s.ask(1, 2);
}

/// Negative readings, odd gains, pans and attack levels: every quotient is rounded down and not toward zero.
fn rounding(s: &mut Script) {
    let ram = [-1, 0, -3, 2, -32_768, 32_767, -32_767, 1, -2, -7, 5, -5, 3, -32_768, -1, -1];
    for (name, attack) in [("at full", -32_768), ("in attack", -11_000)] {
        let mut plan = BankPlan { samples: vec![sample(0, 16)], ..BankPlan::default() };
        for (pan, attenuation) in [
            (0, 0),
            (1, 3),
            (-1, 3),
            (499, 150),
            (-499, 150),
            (500, 17),
            (-500, 17),
            (333, 700),
            (-77, 960),
            (250, 1_430),
        ] {
            let program = plan.presets.len() as u16;
            let gens = quick(&[(34, attack), (17, pan), (48, attenuation), (54, 1)]);
            plan.strike_plan(program, &[], vec![zone_to(&gens, 53, 0)]);
        }
        s.begin_plan(&format!("rounding: {name}"), &plan, &ram);
        s.control(0, 7, 127);
        for program in 0..plan.presets.len() as u8 {
            for key in [48, 55, 60, 66] {
                s.program(0, program);
                s.on(0, key, 127);
                for n in [1, 1, 1, 1, 16] {
                    s.go(n);
                }
                s.silence(0);
            }
        }
    }
}

/// The examples marked Run: a full reading at full gain, and halfway from 0 to -1.
fn run_examples(s: &mut Script) {
    let plan = one_zone(&quick(&[(54, 1)]), sample(0, 1));
    s.begin_plan("example: 32,767 at full gain", &plan, &[32_767]);
    s.control(0, 7, 127);
    s.on(0, 60, 127);
    s.go(1);
    s.go(2);
    let plan = one_zone(&quick(&[(54, 1)]), sample(0, 2));
    s.begin_plan("example: halfway from 0 to -1", &plan, &[0, -1]);
    s.control(0, 7, 127);
    s.on(0, 48, 127);
    for _ in 0..5 {
        s.go(1);
    }
}

/// Sums past both ends are held to -2^23..2^23, both included; sums of opposite voices are 0.
fn mix_is_held(s: &mut Script) {
    let mut plan = BankPlan { samples: vec![sample(0, 1), sample(1, 2), sample(2, 3)], ..BankPlan::default() };
    for (program, pan) in [(0, 0), (1, -500), (2, 500)] {
        for number in 0..3 {
            let gens = quick(&[(17, pan), (54, 1)]);
            plan.strike_plan(3 * program + number, &[], vec![zone_to(&gens, 53, number as i32)]);
        }
    }
    s.begin_plan("the mix is held", &plan, &[32_767, -32_768, 1]);
    s.control(0, 7, 127);
    for program in 0..9 {
        s.program(0, program);
        for _ in 0..3 {
            s.on(0, 60, 127);
            s.go(1);
        }
        s.silence(0);
    }
    for program in [0, 1, 3, 4, 1, 8, 7, 0, 2, 2, 2] {
        s.program(0, program);
        s.on(0, 60, 127);
        s.go(2);
    }
    s.silence(0);
    // A full voice and one of 1 on one side: just 2^23, then past it; then down to the other end.
    for program in [3, 5, 5] {
        s.program(0, program);
        s.on(0, 60, 127);
        s.go(1);
    }
    for _ in 0..3 {
        s.program(0, 4);
        s.on(0, 60, 127);
        s.go(1);
    }
}

/// Bend, 7 and 11 count as they stand at the frame, of the voice's own channel.
fn controls_at_the_frame(s: &mut Script) {
    let gens = quick(&[(34, -10_000), (54, 1)]);
    s.begin_plan("controls at the frame", &one_zone(&gens, sample(0, 16)), &noise(16, 78));
    s.on(0, 60, 127);
    s.on(1, 64, 127);
    s.go(5);
    for (channel, control, value) in [
        (0, 7, 40),
        (1, 7, 0),
        (1, 11, 90),
        (0, 11, 0),
        (0, 11, 127),
        (1, 7, 127),
        (0, 1, 99),
        (0, 10, 0),
        (1, 91, 127),
    ] {
        s.control(channel, control, value);
        s.go(5);
    }
    for (channel, bend) in [(0, 0), (1, 16_383), (0, 8_191), (2, 0), (1, 8_192), (0, 12_345)] {
        s.bend(channel, bend);
        s.go(5);
    }
}

/// The same 120 frames, cut in many ways: the words, clocks and stages at the end are one, and so are single frames.
fn cuts(s: &mut Script) {
    let gens = [(33, -12_000), (34, -12_000), (35, -32_768), (36, -10_500), (37, 300), (54, 3)];
    let window = SamplePlan { loop_start: 3, loop_end: 10, ..sample(0, 16) };
    let mut bank = one_zone(&gens, window);
    bank.strike_plan(1, &[], vec![zone_to(&quick(&[(37, 50)]), 53, 0)]);
    for piece in [1, 2, 3, 5, 7, 11, 12, 13, 24, 40, 43, 44, 60, 119, 120] {
        s.begin_plan(&format!("cuts: pieces of {piece}"), &bank, &noise(16, 79));
        s.on(0, 61, 90);
        s.program(0, 1);
        s.on(0, 40, 100);
        let mut left = 120u32;
        while left > 0 {
            let n = left.min(piece);
            s.go(n);
            if piece > 10 {
                s.go(0);
            }
            left -= n;
        }
        s.off(0, 61);
        s.go(60);
    }
}
