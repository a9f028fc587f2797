//! Every example of document 01, those marked P (tables) and those marked Run (the engine).

mod common;

use common::Rig;
use second::make::bank_builder::{one_zone, quick, sample, zone_to, BankPlan};
use second::slots_keys_clock::{TOO_FAR, TOO_LONG, TOO_MANY_LAYERS};
use second::tables_and_steps::{bend_cents, gain_by_rule, tables};

#[test]
fn p_steps() {
    let t = tables();
    assert_eq!(t.step(0, 44_100), 16_777_216);
    assert_eq!(t.step(1_200, 44_100), 33_554_432);
    assert_eq!(t.step(-9_600, 44_100), 65_536);
    assert_eq!(t.step(4_800, 44_100), 268_435_456);
    assert_eq!(t.step(0, 50_000), 19_021_786);
    assert_eq!(t.step(-9_600, 400), 594);
}

#[test]
fn p_frames() {
    let t = tables();
    assert_eq!(t.frames(0, 8_000), 44_100);
    assert_eq!(t.frames(-12_000, 8_000), 43);
    assert_eq!(t.frames(-32_768, 8_000), 0);
}

#[test]
fn p_gains() {
    let t = tables();
    assert_eq!(t.gain(0), 16_777_216);
    assert_eq!(t.gain(200), 1_677_721);
    assert_eq!(t.gain(1_000), 167);
}

/// Every gain is the number of 01's rule, though only 200 are kept (02, M-105); dividing alone would give 1 at 1,441.
#[test]
fn every_gain_by_its_rule() {
    for a in 0..=1_440 {
        assert_eq!(tables().gain(a), gain_by_rule(a as u64), "gain {a}");
    }
    assert_eq!([tables().gain(1_440), tables().gain(1_441)], [1, 0]);
    assert_eq!(tables().gain(1_441 - 7 * 200) / 10_i64.pow(7), 1);
    for a in [1_442, 1_599, 1_600, 1_641, 10_000, i64::MAX] {
        assert_eq!(tables().gain(a), 0, "gain {a}");
    }
}

#[test]
fn p_velocities() {
    let t = tables();
    assert_eq!(t.velocity(111), 23);
    assert_eq!(t.velocity(64), 119);
    assert_eq!(t.velocity(1), 841);
}

/// Twelve thousand timecents are 1,024 s and 200 cB a tenth, where source document 000 says otherwise.
#[test]
fn where_document_000_is_wrong() {
    let t = tables();
    assert_eq!(t.frames(-12_000, 8_000), 44_100 / 1_024);
    assert_eq!(t.gain(200), t.gain(0) / 10);
}

#[test]
fn run_full_reading_at_full_gain() {
    let plan = one_zone(&quick(&[(54, 1)]), sample(0, 1));
    let mut rig = Rig::new(&plan, &[32_767]).at_full();
    assert_eq!(rig.on(0, 60, 127), Ok(1));
    assert_eq!(rig.render(1), [32_767.0 / 65_536.0, 32_767.0 / 65_536.0]);
}

#[test]
fn run_halfway_from_zero_to_minus_one() {
    let plan = one_zone(&quick(&[(54, 1)]), sample(0, 2));
    let mut rig = Rig::new(&plan, &[0, -1]).at_full();
    assert_eq!(rig.on(0, 48, 127), Ok(1));
    assert_eq!(rig.sums(), (0, 0));
    // Reading -1 at full gain is u = -256, and half of it goes to each side.
    assert_eq!(rig.sums(), (-128, -128));
}

#[test]
fn run_bends() {
    assert_eq!(bend_cents(0), -200);
    assert_eq!(bend_cents(8_191), -1);
    assert_eq!(bend_cents(8_192), 0);
    assert_eq!(bend_cents(16_383), 199);
    let plan = one_zone(&quick(&[(54, 1)]), sample(0, 8));
    for (bend, cents) in [(0, -200), (8_191, -1), (16_383, 199)] {
        let mut rig = Rig::new(&plan, &[5; 8]);
        assert_eq!(rig.engine.bend(0, bend), Ok(0));
        assert_eq!(rig.on(0, 60, 100), Ok(1));
        rig.render(1);
        assert_eq!(rig.voice(0).place, tables().step(cents, 44_100));
    }
}

#[test]
fn run_distances() {
    let mut rig = Rig::new(&one_zone(&[], sample(0, 8)), &[0; 8]);
    let mut output = vec![0.0; 8_448];
    assert_eq!(rig.render_to(4_096, &mut output), Ok(0));
    assert_eq!(rig.render_to(4_096 + 4_097, &mut output), Err(TOO_LONG));
    assert_eq!(rig.render_to(4_095, &mut output), Err(TOO_FAR));
    assert_eq!(rig.engine.clock, 4_096);
}

#[test]
fn run_counts_of_layers() {
    let mut plan = BankPlan { samples: vec![sample(0, 8)], ..BankPlan::default() };
    for (program, count) in [(0, 0), (1, 32), (2, 33)] {
        plan.strike_plan(program, &[], vec![zone_to(&[], 53, 0); count]);
    }
    let mut rig = Rig::new(&plan, &[0; 8]);
    for (program, answer) in [(0, Ok(0)), (1, Ok(32)), (2, Err(TOO_MANY_LAYERS))] {
        assert_eq!(rig.engine.program(0, program), Ok(0));
        assert_eq!(rig.on(0, 60, 100), answer);
    }
    assert_eq!(rig.engine.word(), u32::MAX);
}
