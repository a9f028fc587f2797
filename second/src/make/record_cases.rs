//! The stored recording: one case in which every command has its part, and the numbers of its renders reach both ends
//! of the 16-bit range and the rounding about 0.

use super::bank_builder::*;
use super::script::{noise, Script};

/// More samples than there is room for in play; those behind the others' room are the bell.
const LONG_MEMORY: usize = 65_600;

pub fn case() -> Vec<u8> {
    let mut s = Script::default();
    no_sound_yet(&mut s);
    strokes(&mut s);
    refusals(&mut s);
    asks(&mut s);
    loudest(&mut s);
    quietest(&mut s);
    another_engine(&mut s);
    long_memory(&mut s);
    s.bytes
}

/// Two presets: a bell that decays, and one that stays, in ROM.
fn bells() -> BankPlan {
    let mut bank =
        BankPlan { samples: vec![sample(8, 200), SamplePlan { kind: 0x8001, ..sample(0, 64) }], ..Default::default() };
    bank.strike_plan(0, &[], vec![zone_to(&[(36, -2_000), (37, 900), (38, -4_000), (54, 1)], 53, 0)]);
    bank.strike_plan(1, &[], vec![zone_to(&quick(&[(38, -6_000), (54, 1)]), 53, 1)]);
    bank
}

/// Renders before there is a bank: silence, no frame at all, and outputs longer than the frames.
fn no_sound_yet(s: &mut Script) {
    s.title("record: no bank");
    s.go(5);
    s.go(0);
    s.go_into(0, 8_448);
    s.go_into(3, 8_448);
    s.on(0, 60, 100);
    s.go(2);
}

/// Three bells in renders of all lengths, with each event between two of them.
fn strokes(s: &mut Script) {
    s.begin("record: strokes", &bells().bytes(), &noise(256, 700), &noise(64, 701));
    for (key, n) in [(60, 1), (64, 2), (67, 4_096)] {
        s.on(0, key, 100);
        s.go(n);
    }
    s.off(0, 60);
    s.go(700);
    s.bend(0, 12_000);
    s.go(701);
    s.control(0, 64, 127);
    s.off(0, 64);
    s.go_into(702, 8_448);
    s.control(0, 64, 0);
    s.control(0, 11, 64);
    s.go_far(6_000);
    s.program(1, 1);
    s.on(1, 72, 40);
    s.go(1_500);
}

/// Every refusal of a render, and those of events; nothing of them is heard.
fn refusals(s: &mut Script) {
    s.title("record: refusals");
    for (distance, length) in [(4_097, 8_448), (1 << 31, 0), (u32::MAX, 8_448), (10, 19), (1, 0), (4_096, 8_191)] {
        s.ask(distance, length);
        s.go(1);
    }
    s.cut_ram(199);
    s.ask(20, 40);
    s.cut_ram(u32::MAX);
    s.cut_rom(63);
    s.ask(20, 40);
    s.on(1, 72, 100);
    s.cut_rom(64);
    s.on(16, 60, 100);
    s.on(0, 128, 100);
    s.off(0, 200);
    s.control(0, 7, 128);
    s.bend(3, 16_384);
    s.program(2, 99);
    s.on(2, 60, 100);
    s.bank(&[1, 2, 3]);
    s.on(0, 60, 100);
    s.go(900);
}

/// What only a trace tells.
fn asks(s: &mut Script) {
    s.title("");
    s.bank(&bells().bytes());
    s.admission();
    s.list(0);
    s.list(9);
    s.opening();
    s.row(1);
    s.defect();
    s.in_use();
    s.hammer(0, 0, 60, 100);
    s.hammer(7, 0, 60, 100);
    s.panel(0);
    s.panel(32);
    s.go(400);
}

/// So many voices of the lowest and the highest samples that the sum is held on both sides.
fn loudest(s: &mut Script) {
    let plan = one_zone(&quick(&[(54, 1)]), sample(0, 2_000));
    let ends: Vec<i16> = (0..2_000).map(|place| if place % 1_000 < 500 { 32_767 } else { -32_768 }).collect();
    s.begin_plan("record: held at both ends", &plan, &ends);
    s.control(0, 7, 127);
    for _ in 0..8 {
        s.on(0, 60, 127);
        s.go(600);
    }
}

/// One voice so quiet that its numbers lie about 0.
fn quietest(s: &mut Script) {
    s.begin_plan("record: about zero", &one_zone(&quick(&[(54, 1)]), sample(0, 40)), &noise(40, 702));
    s.control(0, 7, 20);
    s.on(0, 48, 12);
    for n in [1, 2, 3, 100, 1_000] {
        s.go(n);
    }
    s.silence(0);
    s.go(50);
}

/// A fresh engine in the middle of a sound: it is cut off, and the clock of the new one passes its end.
fn another_engine(s: &mut Script) {
    s.title("record: another engine");
    s.on(0, 60, 127);
    s.go(300);
    s.fresh(u32::MAX - 99);
    s.go(50);
    s.on(0, 62, 127);
    s.go(100);
    s.ask(u32::MAX, 8_448);
    s.go(1_000);
    s.rom(&noise(10, 703));
    s.ram(&noise(40, 704));
    s.go(1_000);
}

/// The bell stands behind the room that play has.
fn long_memory(s: &mut Script) {
    let mut ram = vec![0; LONG_MEMORY];
    ram[LONG_MEMORY - 50..].copy_from_slice(&noise(50, 705));
    let bell = sample(LONG_MEMORY as u32 - 50, LONG_MEMORY as u32);
    s.begin_plan("record: a long memory", &one_zone(&quick(&[(38, -3_000), (54, 1)]), bell), &ram);
    s.on(0, 55, 110);
    s.go_far(5_000);
    s.off(0, 55);
    s.go_far(4_500);
}
