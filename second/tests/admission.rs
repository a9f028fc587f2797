//! "Bank admission": each kind of fault with its place, and what is not looked at.

use second::bank_admission::{admit, list, Kind};
use second::make::bank_builder::*;

/// Two presets and two instruments, each of a global and a sounding zone, and two samples.
fn plan() -> BankPlan {
    let preset =
        |program| PresetPlan { program, bank: 0, zones: vec![zone(&[(48, 1)]), zone_to(&[], 41, program as i32)] };
    BankPlan {
        presets: vec![preset(0), preset(1)],
        instruments: [0, 1].map(|n| vec![zone(&[(48, 1)]), zone_to(&[(17, 5)], 53, n)]).to_vec(),
        samples: vec![sample(0, 8), sample(2, 9)],
    }
}

/// Where a chunk begins in the bank.
fn begin(raw: &RawBank, chunk: usize) -> usize {
    raw.chunks[..chunk].iter().map(|c| c.body.len() + 8).sum()
}

/// Where a record begins.
fn place(raw: &RawBank, chunk: usize, record: usize) -> usize {
    begin(raw, chunk) + 8 + record * raw.chunks[chunk].record
}

/// The fault of a bank after a change, and the place that is expected for it.
fn check(kind: Kind, change: impl Fn(&mut RawBank) -> usize) {
    let mut raw = plan().raw();
    assert!(admit(&raw.bytes()).is_ok());
    let expected = change(&mut raw);
    let fault = admit(&raw.bytes()).err().expect("a fault");
    assert_eq!((fault.kind, fault.place), (kind, expected));
}

#[test]
fn too_long_comes_first() {
    let fault = admit(&vec![0; 65_537]).err().expect("a fault");
    assert_eq!((fault.kind, fault.place), (Kind::TooLong, 65_536));
    let fault = admit(&vec![0; 65_536]).err().expect("a fault");
    assert_eq!((fault.kind, fault.place), (Kind::Chunk, 0));
}

#[test]
fn chunks_that_are_wrong_or_missing() {
    for chunk in 0..9 {
        check(Kind::Chunk, |raw| {
            raw.chunks[chunk].name[3] = b'!';
            begin(raw, chunk)
        });
        check(Kind::Chunk, |raw| {
            raw.chunks.truncate(chunk);
            begin(raw, chunk)
        });
    }
    check(Kind::Chunk, |raw| {
        raw.behind = vec![0];
        begin(raw, SHDR) + 8 + raw.chunks[SHDR].body.len()
    });
    check(Kind::Chunk, |raw| {
        raw.chunks[SHDR].size_error = 1;
        begin(raw, SHDR)
    });
}

#[test]
fn records_that_are_broken_or_too_few() {
    for chunk in 0..9 {
        check(Kind::Records, |raw| {
            raw.chunks[chunk].body.push(0);
            begin(raw, chunk)
        });
        let least = if [PHDR, INST, SHDR].contains(&chunk) { 1 } else { 0 };
        check(Kind::Records, |raw| {
            let size = raw.chunks[chunk].record;
            raw.chunks[chunk].body.truncate(least * size);
            begin(raw, chunk)
        });
    }
}

#[test]
fn indexes_that_fall_or_end_wrong() {
    for (chunk, at) in [(PHDR, 24), (PBAG, 0), (PBAG, 2), (INST, 20), (IBAG, 0), (IBAG, 2)] {
        check(Kind::Index, |raw| {
            raw.set(chunk, 0, at, 9_999);
            place(raw, chunk, 1)
        });
        for wrong in [1u16, 0xffff] {
            check(Kind::Index, |raw| {
                let terminal = raw.count(chunk) - 1;
                let right = raw.get(chunk, terminal, at);
                raw.set(chunk, terminal, at, right.wrapping_add(wrong));
                place(raw, chunk, terminal)
            });
        }
    }
    // Among several, the smallest place.
    check(Kind::Index, |raw| {
        raw.set(IBAG, 0, 0, 9_999);
        raw.set(PBAG, 1, 2, 9_999);
        place(raw, PBAG, 2)
    });
}

#[test]
fn numbers_that_are_too_high() {
    check(Kind::Number, |raw| {
        raw.set(PGEN, 1, 2, 2);
        place(raw, PGEN, 1)
    });
    check(Kind::Number, |raw| {
        raw.set(IGEN, 2, 2, 2);
        place(raw, IGEN, 2)
    });
    check(Kind::Number, |raw| {
        raw.set(IGEN, 2, 2, 0xffff);
        raw.set(PGEN, 3, 2, 0xffff);
        place(raw, PGEN, 3)
    });
}

#[test]
fn rates_and_windows() {
    for rate in [399, 50_001] {
        check(Kind::Rate, |raw| {
            raw.set_wide(SHDR, 1, 36, rate);
            raw.set_wide(SHDR, 0, 24, 0);
            place(raw, SHDR, 1)
        });
    }
    check(Kind::Window, |raw| {
        raw.set_wide(SHDR, 1, 24, 2);
        place(raw, IGEN, 5)
    });
    check(Kind::Window, |raw| {
        raw.set(IGEN, 1, 0, 0);
        raw.set(IGEN, 1, 2, 0xffff);
        place(raw, IGEN, 2)
    });
}

/// Names, modulators, terminal records but for their indexes, and samples that no zone names are not looked at.
#[test]
fn what_is_not_looked_at() {
    let mut raw = plan().raw();
    raw.set(PHDR, 2, 20, 0xffff);
    raw.set(PHDR, 2, 22, 0xffff);
    raw.set_wide(SHDR, 2, 36, 7);
    raw.set_wide(SHDR, 2, 20, u32::MAX);
    raw.chunks[PMOD].body.fill(0xff);
    raw.chunks[PGEN].body[16..].fill(0xff);
    raw.set(IGEN, 5, 2, 0);
    raw.set_wide(SHDR, 1, 36, 0);
    raw.set_wide(SHDR, 1, 24, 0);
    assert!(admit(&raw.bytes()).is_ok());
}

#[test]
fn the_listing_gives_each_preset_and_then_the_end() {
    let mut plan = plan();
    plan.presets[1].program = 300;
    plan.presets[1].bank = 0xffff;
    let bank = admit(&plan.bytes()).expect("admitted");
    assert_eq!(list(&bank, 0), Some((0, 0, 1)));
    assert_eq!(list(&bank, 1), Some((300, 0xffff, 2)));
    for place in [2, 3, u32::MAX] {
        assert_eq!(list(&bank, place), None);
    }
}
