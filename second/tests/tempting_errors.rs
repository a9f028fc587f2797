//! Each tempting error of document 01's list, in a case that would show it: the wrong answer is worked out beside the
//! right one, and they differ.

mod common;

use common::Rig;
use second::make::bank_builder::{one_zone, quick, sample, zone_to, Gen, SamplePlan};
use second::slots_keys_clock::TOO_FAR;
use second::tables_and_steps::tables;
use second::voice::Stage;

fn looped(gens: &[Gen], plan: SamplePlan) -> second::make::bank_builder::BankPlan {
    one_zone(&quick(&[gens, &[(54, 1)]].concat()), plan)
}

/// One voice per key: a second strike of a key would end or replace the first, and a note-off find one voice.
#[test]
fn one_voice_per_key() {
    let mut rig = Rig::new(&looped(&[], sample(0, 8)), &[9; 8]);
    assert_eq!(rig.on(0, 60, 100), Ok(1));
    rig.render(3);
    assert_eq!(rig.on(0, 60, 90), Ok(1));
    assert_eq!(rig.engine.word(), 0b11);
    assert_eq!(rig.voice(0).stage, Stage::Sustain);
    assert_eq!(rig.off(0, 60), Ok(2));
    assert!(rig.voice(0).released() && rig.voice(1).released());
    rig.render(44);
    assert_eq!(rig.engine.word(), 0);
}

/// Rounding toward zero: at each place where a negative number is divided, the sums would come out nearer to zero.
#[test]
fn rounding_toward_zero() {
    assert_eq!(-(1 << 23) / (1 << 24), 0, "halfway to -1, toward zero");
    let mut rig = Rig::new(&looped(&[], sample(0, 2)), &[0, -1]).at_full();
    assert_eq!(rig.on(0, 48, 127), Ok(1));
    rig.render(1);
    assert_eq!(rig.sums(), (-128, -128), "the reading");

    let gain = tables().gain(7);
    let (down, toward_zero) = ((-3 * gain).div_euclid(1 << 16), -3 * gain / (1 << 16));
    assert_ne!(down, toward_zero);
    assert_ne!(down.div_euclid(2), toward_zero.div_euclid(2));
    let mut rig = Rig::new(&looped(&[(48, 7)], sample(0, 1)), &[-3]).at_full();
    assert_eq!(rig.on(0, 60, 127), Ok(1));
    assert_eq!(rig.sums().0, down.div_euclid(2), "the gain");

    let (down, toward_zero) = ((-256i64 * 501).div_euclid(1_000), -256 * 501 / 1_000);
    assert_ne!(down, toward_zero);
    let mut rig = Rig::new(&looped(&[(17, -1)], sample(0, 1)), &[-1]).at_full();
    assert_eq!(rig.on(0, 60, 127), Ok(1));
    assert_eq!(rig.sums().0, down, "the pan");
}

/// The same in attack, where u is multiplied by the level.
#[test]
fn rounding_toward_zero_in_attack() {
    let plan = looped(&[(34, -12_000), (17, -500)], sample(0, 1));
    let mut rig = Rig::new(&plan, &[-1]).at_full();
    assert_eq!(rig.on(0, 60, 127), Ok(1));
    assert_eq!(rig.sums(), (0, 0));
    for spent in 1..43 {
        let level = (1i64 << 24) * spent / 43;
        assert_ne!((-256 * level).div_euclid(1 << 24), -256 * level / (1 << 24));
        assert_eq!(rig.sums().0, (-256 * level).div_euclid(1 << 24));
    }
}

/// Taking a voice just started: the second layer of a soft strike would take the first one's slot.
#[test]
fn taking_a_voice_just_started() {
    let mut plan = looped(&[], sample(0, 8));
    let layer = zone_to(&quick(&[(54, 1)]), 53, 0);
    plan.strike_plan(1, &[], vec![layer; 3]);
    let mut rig = Rig::new(&plan, &[9; 8]);
    for key in 0..32 {
        assert_eq!(rig.on(0, key, 127), Ok(1));
    }
    assert_eq!(rig.engine.program(1, 1), Ok(0));
    assert_eq!(rig.on(1, 60, 1), Ok(3));
    let of_strike = |rig: &Rig| -> Vec<usize> {
        let slots = 0..32;
        slots.filter(|&s| rig.voice(s).channel == 1).collect()
    };
    assert_eq!(of_strike(&rig), [0, 1, 2]);
    // The next soft strike may take them, and does so before any louder voice.
    assert_eq!(rig.on(1, 61, 2), Ok(3));
    assert_eq!(of_strike(&rig), [0, 1, 2]);
    assert!((0..3).all(|s| rig.voice(s).key == 61));
}

/// A plain "less than" on the clock: a target behind the wrap would look like the past, and one back like the far future.
#[test]
fn plain_less_than_on_the_clock() {
    let mut rig = Rig::new(&looped(&[], sample(0, 8)), &[9; 8]);
    rig.engine.clock = 0xffff_fff0;
    let mut output = vec![0.0; 8_448];
    assert_eq!(rig.on(0, 60, 100), Ok(1));
    assert_eq!(rig.render_to(0x10, &mut output), Ok(0));
    assert_eq!(rig.engine.clock, 0x10);
    assert_eq!(rig.voice(0).place, 0, "32 frames of a loop of 8");
    assert_eq!(rig.render_to(0x0f, &mut output), Err(TOO_FAR));
    assert_eq!(rig.render_to(0xffff_fff0, &mut output), Err(TOO_FAR));
}

/// Folding once when the loop is shorter than the step: the place would stay past the loop's end.
#[test]
fn folding_once() {
    for length in 1..=7u32 {
        let window = SamplePlan { loop_start: 2, loop_end: 2 + length, rate: 50_000, ..sample(0, 16) };
        let memory: Vec<i16> = (0..16).map(|i| 100 * i).collect();
        let mut rig = Rig::new(&looped(&[], window), &memory).at_full();
        assert_eq!(rig.on(0, 108, 127), Ok(1));
        let step = tables().step(4_800, 50_000);
        let (start, end) = (2u64 << 24, (2 + length as u64) << 24);
        let fold = |place: u64| {
            if place < end {
                place
            } else {
                start + (place - start) % (end - start)
            }
        };
        assert!(step - (end - start) >= end, "one fold would not be enough");
        let mut place = 0;
        for _ in 0..50 {
            rig.render(1);
            place = fold(place + step);
            assert_eq!(rig.voice(0).place, place);
        }
    }
}
