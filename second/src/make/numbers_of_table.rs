//! Cases of 01's table: every number at both sides of its boundary, in the order of the tests, and the clock.

use super::bank_builder::{one_zone, quick, sample, zone, zone_to, BankPlan, PresetPlan, SamplePlan};
use super::script::{noise, Script};

pub fn write(s: &mut Script) {
    ranges(s);
    velocity_zero(s);
    order_of_note_on(s);
    memory_edge_of_note_on(s);
    output_lengths(s);
    distances(s);
    order_of_render(s);
    memory_edge_of_render(s);
    clock_wrap(s);
    listing(s);
    lent_memories(s);
}

fn plain_bank() -> BankPlan {
    one_zone(&quick(&[(54, 1)]), sample(0, 16))
}

/// 2: channel 15, bend 16,383, slot 31, others 127. First keys.
fn ranges(s: &mut Script) {
    s.begin_plan("number 2: ranges", &plain_bank(), &noise(16, 1));
    for (channel, key) in [(15, 127), (16, 60), (255, 60), (0, 128), (0, 255), (0, 0)] {
        s.on(channel, key, 100);
    }
    for velocity in [127, 128, 255, 1] {
        s.on(0, 60, velocity);
    }
    s.go(3);
    for (channel, key) in [(16, 127), (255, 0), (15, 128), (15, 255), (15, 127), (0, 0)] {
        s.off(channel, key);
    }
    ranges_of_controls(s);
}

/// Controls, programs, bends and slots at and past their ranges.
fn ranges_of_controls(s: &mut Script) {
    for (channel, control, value) in [(15, 127, 127), (16, 7, 0), (0, 128, 0), (0, 7, 128), (0, 64, 255)] {
        s.control(channel, control, value);
    }
    for (channel, control, value) in [(255, 255, 255), (16, 120, 0), (0, 120, 128), (15, 123, 128)] {
        s.control(channel, control, value);
    }
    for (channel, program) in [(15, 127), (16, 0), (0, 128), (255, 255), (0, 127)] {
        s.program(channel, program);
    }
    for (channel, bend) in [(15, 16_383), (16, 0), (0, 16_384), (0, 65_535), (0, 0), (255, 8_192)] {
        s.bend(channel, bend);
    }
    for slot in [0, 1, 2, 31, 32, 255] {
        s.panel(slot);
    }
    s.go(4);
}

/// "Velocity 0, once the ranges are tested, is a note-off and needs no bank."
fn velocity_zero(s: &mut Script) {
    s.begin_plan("velocity 0 is a note-off", &plain_bank(), &noise(16, 2));
    s.on(0, 60, 90);
    s.on(0, 60, 80);
    s.go(5);
    s.bank(&[]);
    for (channel, key) in [(16, 60), (0, 128), (0, 61), (1, 60), (0, 60), (0, 60)] {
        s.on(channel, key, 0);
    }
    s.go(60);
    s.program(0, 99);
    s.on(0, 60, 0);
    s.cut_ram(0);
    s.on(0, 60, 0);
}

/// A preset zone for each count of layers: program n has n layers, each with the sample of that number.
fn layers_bank(counts: &[u16], plan: SamplePlan) -> BankPlan {
    let mut bank = BankPlan { samples: vec![plan, sample(0, 16)], ..BankPlan::default() };
    for &count in counts {
        let mut zones = vec![zone_to(&quick(&[(54, 1)]), 53, 1); count as usize];
        if let Some(last) = zones.last_mut() {
            *last = zone_to(&quick(&[(54, 1)]), 53, 0);
        }
        bank.strike_plan(count, &[], zones);
    }
    bank
}

/// Two faults at once: the one tested first is told. 2 before 1, 1 before 3, 3 before 8, 4 before 8.
fn order_of_note_on(s: &mut Script) {
    let bank = layers_bank(&[0, 1, 31, 32, 33, 34], sample(0, 20)).bytes();
    s.begin("note-on: order of the tests", &[], &noise(16, 3), &[]);
    s.on(16, 60, 100);
    s.on(0, 128, 100);
    s.on(0, 60, 128);
    s.on(0, 60, 100);
    s.program(0, 77);
    s.on(0, 60, 100);
    s.bank(&bank);
    s.on(16, 60, 100);
    s.on(0, 60, 100);
    s.on(9, 60, 100);
    for program in [0, 1, 31, 32, 33, 34] {
        s.program(0, program);
        s.on(16, 60, 100);
        s.on(0, 60, 100);
    }
    s.bank(&bank[..bank.len() - 1]);
    s.on(0, 60, 100);
    s.program(0, 2);
    s.on(0, 60, 100);
    s.on(0, 60, 200);
    s.ram(&noise(20, 3));
    s.on(0, 60, 100);
    s.bank(&bank);
    for program in [0, 1, 31, 32, 33, 34, 2] {
        s.program(0, program);
        s.on(0, 60, 100);
        s.go(2);
        s.silence(0);
    }
}

/// 8 at note-on: a window may end where its memory ends, and not one sample behind; each memory by itself.
fn memory_edge_of_note_on(s: &mut Script) {
    for (kind, name) in [(1, "number 8: note-on, RAM"), (0x8001, "number 8: note-on, ROM")] {
        let plan = SamplePlan { kind, ..sample(2, 10) };
        let bank = one_zone(&quick(&[(54, 1)]), plan).bytes();
        s.begin(name, &bank, &noise(12, 4), &noise(12, 5));
        for n in [12, 11, 10, 9, 0, 10] {
            if kind == 1 {
                s.cut_ram(n);
            } else {
                s.cut_rom(n);
            }
            s.on(0, 60, 100);
        }
        s.go(4);
        if kind == 1 {
            s.cut_rom(0);
        } else {
            s.cut_ram(0);
        }
        s.on(0, 62, 100);
        s.go(4);
    }
}

/// 7: an output of twice the distance is enough, one number less is not; what is behind stays.
fn output_lengths(s: &mut Script) {
    s.begin_plan("number 7: output lengths", &plain_bank(), &noise(16, 6));
    s.on(0, 64, 100);
    for (distance, length) in [(1, 0), (1, 1), (3, 5), (4_096, 8_191), (2, 2), (4_096, 0), (100, 199)] {
        s.ask(distance, length);
    }
    for (distance, length) in [(0, 0), (0, 1), (0, 2), (0, 9), (1, 2), (1, 3), (3, 6), (3, 7), (3, 100), (5, 8_448)] {
        s.go_into(distance, length);
    }
    s.go_into(4_096, 8_192);
    s.go_into(4_096, 8_193);
}

/// 5 and 6: distances 0, 1, 4,095, 4,096, 4,097, 2^31 - 1, 2^31, one back, from several clock values.
fn distances(s: &mut Script) {
    for start in [0u32, 1, 5_000, 0x7fff_ffff, 0x8000_0000, 0xffff_f000, 0xffff_ffff] {
        let name = format!("distances from clock {start:08x}");
        s.begin_plan(&name, &plain_bank(), &noise(16, 7));
        s.fresh(start);
        s.on(3, 50, 90);
        s.go(3);
        let refused =
            [4_097, 4_098, 8_192, 0x7fff_ffff, 0x8000_0000, 0x8000_0001, 0xffff_fffe, 0xffff_ffff, 0xffff_f000];
        for distance in refused {
            s.ask(distance, 8_448);
        }
        for distance in [0, 1, 0, 2, 4_095, 4_096, 1] {
            s.go(distance);
        }
        s.ask(u32::MAX, 2);
    }
}

/// Two faults at once: 5 before 7 and 8, 6 before 7 and 8, 7 before 8.
fn order_of_render(s: &mut Script) {
    s.begin_plan("render: order of the tests", &plain_bank(), &noise(16, 8));
    s.on(0, 60, 100);
    s.go(2);
    s.cut_ram(15);
    for distance in [0x8000_0000, 0xffff_ffff, 0x7fff_ffff, 4_097, 4_096, 1, 0] {
        s.ask(distance, 0);
        s.ask(distance, 8_448);
    }
    s.cut_ram(16);
    for distance in [0x8000_0000, 0xffff_ffff, 0x7fff_ffff, 4_097, 4_096, 1] {
        s.ask(distance, 0);
    }
    s.go(0);
    s.go(4_096);
}

/// 8 at render: each sounding slot, in delay and at distance 0 too, and no free slot; the bank is not looked at.
fn memory_edge_of_render(s: &mut Script) {
    let mut bank = one_zone(&quick(&[]), sample(0, 16));
    let rom = SamplePlan { kind: 0x8000, ..sample(0, 30) };
    bank.samples.push(rom);
    let slow = vec![zone_to(&[(33, -9_000), (54, 1)], 53, 1)];
    bank.strike_plan(1, &[], slow);
    s.begin("number 8: render", &bank.bytes(), &noise(16, 9), &noise(30, 10));
    s.on(0, 60, 100);
    s.program(1, 1);
    s.on(1, 60, 100);
    s.bank(&[]);
    s.cut_rom(29);
    s.ask(0, 0);
    s.ask(1, 2);
    s.cut_rom(31);
    s.cut_ram(15);
    s.ask(0, 2);
    s.ask(5, 10);
    s.cut_ram(16);
    s.go(15);
    s.cut_ram(15);
    s.ask(1, 2);
    s.cut_ram(16);
    s.go(1);
    s.cut_ram(0);
    s.go(7);
    s.off(1, 60);
    s.cut_rom(0);
    s.ask(0, 0);
    s.ask(1, 2);
    s.silence(1);
    s.go(1);
}

/// The clock rolls over; voices go on across it, and their stages and age order with them.
fn clock_wrap(s: &mut Script) {
    let gens = [(33, -12_000), (34, -12_000), (36, -9_000), (37, 300), (54, 1)];
    s.begin_plan("clock wrap", &one_zone(&gens, sample(0, 16)), &noise(16, 11));
    s.fresh(0xffff_ffc0);
    s.on(0, 60, 100);
    for n in [20, 20, 20, 3, 1, 1, 1, 40, 40, 40] {
        s.go(n);
        s.ask(0xffff_ffff, 2);
    }
    s.off(0, 60);
    s.go(44);
    s.fresh(0xffff_ff00);
    for key in 0..32 {
        s.on(0, key, 100);
        s.go(16);
    }
    for key in 40..44 {
        s.on(0, key, 100);
        s.go(1);
    }
}

/// The listing: each record but the terminal, then the end, for any place; programs and banks out of reach too.
fn listing(s: &mut Script) {
    let mut bank = plain_bank();
    for (program, number) in [(127, 128), (128, 0), (65_535, 65_535), (0, 0), (5, 129)] {
        bank.presets.push(PresetPlan { program, bank: number, zones: vec![zone(&[])] });
    }
    s.begin_plan("listing", &bank, &noise(16, 12));
    for place in (0..9).chain([255, 256, 65_536, 0x7fff_ffff, 0x8000_0000, 0xffff_ffff]) {
        s.list(place);
    }
    s.bank(&bank.bytes()[1..]);
    for place in [0, 1, 0xffff_ffff] {
        s.list(place);
    }
    s.admission();
}

/// What m and x lend: at most all of it, and counted from the whole memory each time.
fn lent_memories(s: &mut Script) {
    s.begin_plan("lent parts of the memories", &plain_bank(), &noise(40, 13));
    s.rom(&noise(20, 14));
    for n in [15, 16, 0, 40, 41, 70_000, u32::MAX] {
        s.cut_ram(n);
        s.cut_rom(n);
        s.on(0, 60, 100);
        s.silence(0);
    }
    s.ram(&noise(15, 15));
    s.on(0, 60, 100);
    s.ram(&noise(16, 15));
    s.on(0, 60, 100);
    s.go(8);
    s.ram(&noise(16, 16));
    s.go(8);
    s.fresh(7);
    s.fresh(9);
    s.on(0, 60, 100);
    s.go(8);
}
