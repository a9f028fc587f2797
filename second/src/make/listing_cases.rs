//! The listing reader over each bank that a case examines, and the fault that keeps the bank out. No call moves the engine.

use super::script::{Lending, Script};
use crate::bank_admission::admit;
use std::collections::HashSet;

/// Each bank once: opening, its fault, then the whole listing, the end, one place past it and the last place of all.
pub fn write(s: &mut Script) {
    s.fresh(0);
    let examined: Vec<Lending> = s.banks.iter().filter(|bank| bank.examined).cloned().collect();
    let mut seen = HashSet::new();
    for bank in &examined {
        if seen.insert(&bank.bytes) {
            listing_of(s, bank);
        }
    }
}

fn listing_of(s: &mut Script, bank: &Lending) {
    s.title(&bank.case);
    s.bank(&bank.bytes);
    s.opening();
    s.defect();
    let records = admit(&bank.bytes).map_or(0, |bank| bank.presets.len());
    for place in 0..records as u32 + 2 {
        s.row(place);
    }
    s.row(u32::MAX);
}
