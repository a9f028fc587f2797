//! Properties over voices and runs by chance: cuts of a render, refusals, the length of a release, demand 3's bound.

mod common;

use common::Rig;
use second::bank_admission::{Fault, Kind};
use second::big::Natural;
use second::make::bank_builder::{one_zone, quick, sample, zone_to, SamplePlan};
use second::make::chance::Chance;
use second::make::chance_cases::bank;
use second::make::script::noise;
use second::slots_keys_clock::TOO_MANY_LAYERS;
use second::tables_and_steps::{bend_cents, tables};
use second::voice::Stage;

/// An engine in the middle of a run by chance: some keys struck, some let go, some frames played.
fn in_the_middle(chance: &mut Chance) -> Rig {
    let plan = bank(chance, 90, 4);
    let mut rig = Rig::new(&plan, &noise(90, chance.number()));
    rig.engine.clock = chance.pick(&[0, 77, 0xffff_fff8]);
    for _ in 0..chance.from(2, 9) {
        let key = chance.from(50, 70) as u8;
        assert!(rig.on(0, key, chance.from(1, 127) as u8).is_ok());
        rig.render(chance.from(0, 60) as u32);
        if chance.once_in(2) {
            assert!(rig.off(0, key).is_ok());
        }
    }
    rig
}

const NO_BANK: Fault = Fault { kind: Kind::Chunk, place: 0 };

/// The same state and memories once more, for renders, which do not look at the bank.
fn again(rig: &Rig) -> Rig {
    Rig { engine: rig.engine.clone(), bank: Err(NO_BANK), ram: rig.ram.clone(), rom: rig.rom.clone() }
}

#[test]
fn every_cut_of_a_render_gives_the_same_frames() {
    let chance = &mut Chance::new(1);
    let mut heard = 0;
    for _ in 0..60 {
        let rig = in_the_middle(chance);
        let n = chance.from(1, 70) as u32;
        let mut whole = again(&rig);
        let frames = whole.render(n);
        heard += frames.iter().filter(|&&number| number != 0.0).count();
        for cut in 0..=n {
            let mut parts = again(&rig);
            let both = [parts.render(cut), parts.render(n - cut)].concat();
            assert_eq!(both, frames);
            assert_eq!(parts.engine, whole.engine);
        }
        let mut single = again(&rig);
        let one_by_one: Vec<f32> = (0..n).flat_map(|_| single.render(1)).collect();
        assert_eq!(one_by_one, frames);
        assert_eq!(single.engine, whole.engine);
    }
    assert!(heard > 1_000, "the frames are not all silent: {heard}");
}

/// One call by chance with numbers that are often past their range; its answer.
fn any_call(rig: &mut Rig, chance: &mut Chance, output: &mut [f32]) -> Result<u32, u32> {
    let mut byte = |last: i64| chance.from(0, last + last / 4) as u8;
    let (channel, a, b) = (byte(15), byte(127), byte(127));
    match chance.from(0, 6) {
        0 => rig.on(channel, a, b),
        1 => rig.off(channel, a),
        2 => rig.control(channel, chance.pick(&[0, 7, 11, 64, 120, 123, 130]), b),
        3 => rig.engine.program(channel, a % 3 + 127 * (b / 120)),
        4 => rig.engine.bend(channel, chance.from(0, 20_000) as u16),
        5 => rig.engine.panel(b % 40).map(|_| 0),
        _ => {
            let distance = chance.pick(&[0, 1, 9, 60, 4_097, 0x8000_0000, 0xffff_ffff]);
            let target = rig.engine.clock.wrapping_add(distance);
            let length = chance.from(0, 150) as usize;
            rig.render_to(target, &mut output[..length])
        }
    }
}

#[test]
fn a_refusal_changes_nothing() {
    let chance = &mut Chance::new(2);
    let mut refusals = [0; 9];
    for round in 0..120 {
        let mut rig = in_the_middle(chance);
        if round % 10 == 9 {
            rig.bank = Err(NO_BANK);
        }
        for _ in 0..60 {
            let ram = rig.ram.clone();
            if chance.once_in(6) {
                rig.ram.truncate(chance.from(0, 60) as usize);
            }
            let engine = rig.engine.clone();
            let before: Vec<f32> = (0..150).map(|i| i as f32).collect();
            let mut output = before.clone();
            if let Err(number) = any_call(&mut rig, chance, &mut output) {
                assert_eq!(rig.engine, engine);
                assert_eq!(output, before);
                refusals[number as usize] += 1;
            }
            rig.ram = ram;
        }
    }
    for number in [1, 2, 3, 5, 6, 7, 8] {
        assert!(refusals[number] > 0, "number {number} was never given");
    }
}

/// Number 4, which banks by chance do not reach: 33 layers that would cut the voice that sounds.
#[test]
fn too_many_layers_change_nothing() {
    let cutting = quick(&[(54, 1), (57, 3)]);
    let mut plan = one_zone(&cutting, sample(0, 8));
    plan.strike_plan(1, &[], vec![zone_to(&cutting, 53, 0); 33]);
    let mut rig = Rig::new(&plan, &[9; 8]);
    assert_eq!(rig.on(0, 60, 100), Ok(1));
    assert_eq!(rig.engine.program(0, 1), Ok(0));
    let before = rig.engine.clone();
    assert_eq!(rig.on(0, 60, 100), Err(TOO_MANY_LAYERS));
    assert_eq!(rig.engine, before);
}

/// "A done render writes exactly the first 2n numbers."
#[test]
fn a_done_render_writes_the_first_2n_numbers() {
    let mut rig = Rig::new(&one_zone(&quick(&[(54, 1)]), sample(0, 8)), &[9; 8]);
    assert_eq!(rig.on(0, 60, 127), Ok(1));
    let mut output = vec![7.0; 20];
    assert_eq!(rig.render_to(6, &mut output), Ok(0));
    assert!(output[..12].iter().all(|&number| number != 7.0));
    assert!(output[12..].iter().all(|&number| number == 7.0));
}

#[test]
fn a_released_voice_is_free_after_n_plus_1_frames() {
    let chance = &mut Chance::new(3);
    let mut longest = 0;
    for _ in 0..80 {
        let time = |chance: &mut Chance| chance.pick(&[-32_768, -12_000, -11_000, -9_500]);
        let mut gens = vec![(54, 1), (37, chance.from(0, 999) as i32)];
        gens.extend([33, 34, 35, 36, 38].map(|operator| (operator, time(chance))));
        let mut rig = Rig::new(&one_zone(&gens, sample(0, 8)), &[9; 8]);
        assert_eq!(rig.on(0, 60, 100), Ok(1));
        rig.render(chance.from(0, 500) as u32);
        let n = rig.voice(0).numbers.release as u32;
        assert_eq!(rig.off(0, 60), Ok(1));
        let from = match rig.voice(0).stage {
            Stage::Release { from, .. } => from,
            other => panic!("not released: {other:?}"),
        };
        rig.render(n);
        // From 0 cB it takes one frame more.
        if from == 0 {
            longest += 1;
            assert_eq!(rig.engine.word(), 1);
        }
        rig.render(1);
        assert_eq!(rig.engine.word(), 0);
    }
    assert!(longest > 0, "some release begins at 0 cB");
}

/// Demand 3, for a voice past its delay that loops on: with A the advance over n frames and c the pitch total,
/// A <= n·X < A + 2n where X = 2^24·2^(c/1,200)·rate/44,100; as 1,200th powers of whole numbers.
#[test]
fn the_advance_keeps_demand_3s_bound() {
    let chance = &mut Chance::new(4);
    for _ in 0..150 {
        let rate = chance.from(400, 50_000) as u32;
        let tuning = [(51, chance.from(-100, 60) as i32), (52, chance.from(-99, 99) as i32)];
        let window = SamplePlan { rate, ..sample(0, 50) };
        let gens = quick(&[&tuning[..], &[(54, 1), (33, -12_000)]].concat());
        let mut rig = Rig::new(&one_zone(&gens, window), &noise(50, 1));
        let bend = chance.from(0, 16_383) as u16;
        assert_eq!(rig.engine.bend(0, bend), Ok(0));
        assert_eq!(rig.on(0, 60, 100), Ok(1));
        rig.render(43);
        assert_eq!(rig.voice(0).place, 0, "in its delay the place stands");
        let n = chance.from(1, 300) as u64;
        let pitch = rig.voice(0).numbers.pitch;
        let cents = (pitch + bend_cents(bend)).clamp(-9_600, 4_800);
        let advance = n * tables().step(cents, rate as u64);
        rig.render(n as u32);
        assert_eq!(rig.voice(0).place, advance % (50 << 24), "the advance, folded");
        assert!(within(advance, n, cents, rate as u64));
        assert!(!within(advance + 2 * n, n, cents, rate as u64));
        assert!(!within(advance.saturating_sub(2 * n), n, cents, rate as u64) || advance < 2 * n);
    }
}

/// A <= n·X < A + 2n, both sides times 44,100 and to the power of 1,200; a negative c goes to the other side.
fn within(advance: u64, n: u64, cents: i64, rate: u64) -> bool {
    let power = |number: Natural| number.power(1_200);
    let whole = Natural::new(n * rate).times(&Natural::two_to(24));
    let middle = power(whole).times(&Natural::two_to(cents.max(0) as u64));
    let side = |a: u64| {
        let number = Natural::new(a).times(&Natural::new(44_100));
        power(number).times(&Natural::two_to((-cents).max(0) as u64))
    };
    side(advance) <= middle && middle < side(advance + 2 * n)
}

/// Every entry of the tables is near the real number that its rule stands for, and below it.
#[test]
fn tables_are_near_their_real_numbers() {
    for i in 0..1_200 {
        let real = 2f64.powf(30.0 + i as f64 / 1_200.0);
        let gap = real - tables().octave(i) as f64;
        assert!((-0.001..1.001).contains(&gap), "octave {i}");
    }
    for a in 0..=1_440 {
        let real = 2f64.powi(24) * 10f64.powf(-a as f64 / 200.0);
        let gap = real - tables().gain(a) as f64;
        assert!((-0.001..1.001).contains(&gap), "gain {a}");
    }
    for v in 1..=127 {
        let real = 400.0 * (127.0 / v as f64).log10();
        let gap = real - tables().velocity(v) as f64;
        assert!((-0.001..1.001).contains(&gap), "velocity {v}");
    }
    assert_eq!(tables().gain(1_441), 0);
    assert_eq!(tables().control(0), 960);
}
