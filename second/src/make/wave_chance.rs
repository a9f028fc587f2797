//! Waves by chance: numbers good and bad, files right and changed, rooms near what they need.

use super::chance::Chance;
use super::song_damage::{put_in, take_out};
use super::wave_builder::*;
use std::io::{self, Write};

const STORED: usize = 600;

/// Those that are stored.
pub fn all() -> Vec<Named> {
    let c = &mut Chance::new(60_000);
    (0..STORED).map(|n| (format!("by chance {n}"), command(c))).collect()
}

/// Writes so many commands.
pub fn write(seed: u64, count: u64, out: &mut impl Write) -> io::Result<()> {
    let c = &mut Chance::new(seed);
    for _ in 0..count {
        out.write_all(&command(c))?;
    }
    out.flush()
}

fn command(c: &mut Chance) -> Vec<u8> {
    if c.once_in(2) {
        let numbers = some_numbers(c);
        let need = room_for(numbers.len());
        write_command(&numbers, room_near(c, need))
    } else {
        let file = some_file(c);
        let need = file.len().saturating_sub(44) as u32 / 2;
        read_command(&file, room_near(c, need))
    }
}

/// Enough room, most often; else a little more or less, or none.
pub(super) fn room_near(c: &mut Chance, need: u32) -> u32 {
    match c.from(0, 9) {
        0..=3 => need,
        4 | 5 => need + c.from(1, 9) as u32,
        6 => need + c.from(1, 300) as u32,
        7 => need.saturating_sub(1),
        8 => c.from(0, need as i64) as u32,
        _ => 0,
    }
}

// Numbers

/// Up to some thirty frames; at times an odd count, at times a few numbers that may be bad.
fn some_numbers(c: &mut Chance) -> Vec<u32> {
    let most = c.pick(&[0, 2, 8, 30]);
    let count = 2 * c.from(0, most) + if c.once_in(12) { 1 } else { 0 };
    let mut numbers: Vec<u32> = (0..count).map(|_| whole(some_k(c))).collect();
    if c.once_in(2) || numbers.is_empty() {
        return numbers;
    }
    for _ in 0..c.pick(&[1, 1, 1, 2, 3]) {
        let place = c.from(0, count - 1) as usize;
        numbers[place] = other_number(c, numbers[place]);
    }
    numbers
}

/// A k of any size, and near the edges of levels more often than elsewhere.
fn some_k(c: &mut Chance) -> i32 {
    let size = 8_388_608i64 >> c.pick(&[0, 0, 0, 1, 4, 8, 15, 23]);
    let k = c.from(-size, size);
    let near = k / 256 * 256 + c.from(-1, 1);
    c.pick(&[k, k, near]).clamp(-8_388_608, 8_388_608) as i32
}

/// A number that is near a good one, or none at all, or any; some of them are good.
fn other_number(c: &mut Chance, good: u32) -> u32 {
    let any = c.number() as u32;
    match c.from(0, 9) {
        0 | 1 => good ^ (1 << c.from(0, 31)),
        2 => good.wrapping_add(c.pick(&[1, u32::MAX])),
        3 | 4 => halves(c.from(-16_777_216, 16_777_216) as i32),
        5 => 0x7f80_0000 | any & 0x807f_ffff,
        6 => any & 0x807f_ffff,
        7 => whole(c.pick(&[-1, 1]) * c.from(8_388_606, 8_388_612) as i32),
        8 => c.pick(&[0x7f80_0000, 0xff80_0000, 0x8000_0000, 0x7f7f_ffff, 1]),
        _ => any,
    }
}

// Files

/// A right file of up to thirty frames of any data, most often changed.
fn some_file(c: &mut Chance) -> Vec<u8> {
    let most = c.pick(&[0, 1, 8, 30]);
    let data: Vec<u8> = (0..4 * c.from(0, most)).map(|_| c.number() as u8).collect();
    let mut bytes = file_of(&data);
    for _ in 0..c.pick(&[0, 0, 0, 1, 1, 1, 2, 3]) {
        change(c, &mut bytes);
    }
    if c.once_in(3) {
        mend_lengths(&mut bytes);
    }
    bytes
}

/// One change: of a byte, mostly of the heading, of a field, or of the length.
fn change(c: &mut Chance, bytes: &mut Vec<u8>) {
    let last = bytes.len() as i64 - 1;
    if last < 0 {
        return put_in(c, bytes);
    }
    let in_heading = c.from(0, last.min(43)) as usize;
    match c.from(0, 11) {
        0 | 1 => bytes[in_heading] ^= 1 << c.from(0, 7),
        2 => bytes[in_heading] = c.number() as u8,
        3 => bytes[in_heading] = bytes[in_heading].wrapping_add(c.pick(&[1, 0xff])),
        4 => bytes[c.from(0, last) as usize] = c.number() as u8,
        5 => bytes.swap(in_heading, c.from(0, last.min(43)) as usize),
        6 => bytes.truncate(c.from(0, last) as usize),
        7 => bytes.truncate(bytes.len().saturating_sub(c.pick(&[1, 2, 3, 4, 8]))),
        8 => bytes.extend(vec![0; c.pick(&[1, 2, 3, 4, 8])]),
        9 => take_out(c, bytes),
        10 => put_in(c, bytes),
        _ => change_size(c, bytes),
    }
}

/// One of the two lengths in the heading, a little or wholly.
fn change_size(c: &mut Chance, bytes: &mut [u8]) {
    let at = c.pick(&[4, 40]);
    let Some(field) = bytes.get_mut(at..at + 4) else { return };
    let size = u32::from_le_bytes([field[0], field[1], field[2], field[3]]);
    let any = c.number() as u32;
    let other = c.pick(&[
        size.wrapping_add(4),
        size.wrapping_sub(4),
        size.wrapping_add(1),
        size ^ 0x8000_0000,
        0,
        u32::MAX,
        any,
    ]);
    field.copy_from_slice(&other.to_le_bytes());
}

/// The lengths are made to fit, so that not every byte taken out leaves a wrong one.
fn mend_lengths(bytes: &mut [u8]) {
    let length = bytes.len() as u32;
    if length >= 44 {
        bytes[4..8].copy_from_slice(&(length - 8).to_le_bytes());
        bytes[40..44].copy_from_slice(&(length - 44).to_le_bytes());
    }
}
