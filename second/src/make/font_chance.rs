//! Fonts by chance from fixed seeds: chunks and lists of many kinds in any order, whole, and with a few changes.

use super::chance::Chance;
use super::font_builder::*;

const WHOLE: u64 = 300;
const DAMAGED: u64 = 500;

pub fn all() -> Vec<Named> {
    let whole = (0..WHOLE).map(|seed| (format!("font {seed}"), any_form(&mut Chance::new(60_000 + seed))));
    let changed = (0..DAMAGED).map(|seed| {
        let c = &mut Chance::new(70_000 + seed);
        let file = any_form(c);
        (format!("damaged font {seed}"), changed(c, file))
    });
    whole.chain(changed).collect()
}

/// A form of some chunks and lists; most often it has both parts.
fn any_form(c: &mut Chance) -> Vec<u8> {
    let parts: Vec<Vec<u8>> = (0..c.from(1, 8)).map(|_| any_part(c)).collect();
    let file = form(&parts);
    let behind = c.pick(&[0, 0, 0, 1, 2, 9]);
    [file, body(behind)].concat()
}

fn any_length(c: &mut Chance) -> usize {
    c.pick(&[0, 1, 2, 3, 4, 5, 7, 8, 9, 12, 38, 46])
}

fn any_part(c: &mut Chance) -> Vec<u8> {
    let length = any_length(c);
    match c.from(0, 9) {
        0 | 1 => bank(length),
        2 | 3 => data(length),
        4 => list(b"sdta", &any_chunks(c)),
        5 => list(c.pick(&[b"INFO", b"adtl", b"smpl", b"LIST"]), &any_chunks(c)),
        _ => any_chunk(c),
    }
}

fn any_chunk(c: &mut Chance) -> Vec<u8> {
    let names = [b"smpl", b"smpl", b"sm24", b"pdta", b"sdta", b"JUNK", b"sfbk", b"RIFF", b"\0\0\0\0"];
    let length = any_length(c);
    let name = c.pick(&names);
    if c.once_in(8) {
        return bare(name, &body(length));
    }
    chunk(name, &body(length))
}

fn any_chunks(c: &mut Chance) -> Vec<u8> {
    (0..c.from(0, 4)).flat_map(|_| any_chunk(c)).collect()
}

/// A file with one to three changes. Most are of size fields, which stand behind the names.
fn changed(c: &mut Chance, mut file: Vec<u8>) -> Vec<u8> {
    for _ in 0..c.pick(&[1, 1, 2, 3]) {
        let place = c.from(0, file.len() as i64 - 1) as usize;
        match c.from(0, 5) {
            0 => file[place] = c.number() as u8,
            1 => file.truncate(place.max(12)),
            2 => file.insert(place, c.number() as u8),
            _ => change_size(c, &mut file),
        }
    }
    if c.once_in(2) {
        mend(&mut file);
    }
    file
}

/// A size field, a little or wholly.
fn change_size(c: &mut Chance, file: &mut [u8]) {
    let is_name = |at: &usize| file[*at..at + 4].iter().all(|byte| byte.is_ascii_alphanumeric());
    let names: Vec<usize> = (0..file.len().saturating_sub(8)).filter(is_name).collect();
    if names.is_empty() {
        return;
    }
    let at = c.pick(&names) + 4;
    let size = u32::from_le_bytes([file[at], file[at + 1], file[at + 2], file[at + 3]]);
    let any = c.number() as u32;
    let other = c.pick(&[size.wrapping_add(1), size.wrapping_sub(1), size.wrapping_add(8), 0, 3, 4, u32::MAX, any]);
    file[at..at + 4].copy_from_slice(&other.to_le_bytes());
}

/// The form is made to reach the file's end, so that not every change leaves it past the end.
fn mend(file: &mut [u8]) {
    let size = file.len().saturating_sub(8) as u32;
    if let Some(field) = file.get_mut(4..8) {
        field.copy_from_slice(&size.to_le_bytes());
    }
}
