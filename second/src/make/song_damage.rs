//! Damaged songs: a few changes by chance of given files, or of songs of our own.

use super::chance::Chance;
use super::song_builder::quantity_in;
use super::song_chance;
use crate::case::SONG_ROOM;
use crate::songs::with_length;
use std::io::{self, Write};

/// How many songs of our own there are where no file is given.
const OWN_SONGS: usize = 60;

/// Writes so many files in the form of songs, each of them one of the given, with a few changes.
pub fn write(seed: u64, count: u64, files: &[Vec<u8>], out: &mut impl Write) -> io::Result<()> {
    let own = if files.is_empty() { song_chance::songs(seed, OWN_SONGS) } else { Vec::new() };
    let files = if files.is_empty() { &own } else { files };
    let c = &mut Chance::new(seed);
    for _ in 0..count {
        let which = c.from(0, files.len() as i64 - 1) as usize;
        out.write_all(&with_length(&damaged(c, &files[which])))?;
    }
    out.flush()
}

/// A file with one to four changes, cut to the longest that there is room for.
pub fn damaged(c: &mut Chance, file: &[u8]) -> Vec<u8> {
    let mut bytes = file[..file.len().min(SONG_ROOM as usize)].to_vec();
    for _ in 0..c.pick(&[1, 1, 1, 2, 2, 3, 4]) {
        change(c, &mut bytes);
    }
    bytes.truncate(SONG_ROOM as usize);
    if c.once_in(2) {
        mend_length(&mut bytes);
    }
    bytes
}

/// The track's length field, and how many bytes are behind it.
fn track(bytes: &mut [u8]) -> Option<(&mut [u8], u32)> {
    let name = bytes.windows(4).position(|four| four == b"MTrk")?;
    let (field, rest) = bytes[name + 4..].split_at_mut_checked(4)?;
    Some((field, rest.len() as u32))
}

/// The track's length is made to reach the file's end, so that not every byte taken out leaves a chunk past the end.
fn mend_length(bytes: &mut [u8]) {
    if let Some((field, rest)) = track(bytes) {
        field.copy_from_slice(&rest.to_be_bytes());
    }
}

/// One change. A file of no byte can only get some.
pub(super) fn change(c: &mut Chance, bytes: &mut Vec<u8>) {
    if bytes.is_empty() {
        return put_in(c, bytes);
    }
    let place = some_place(c, bytes);
    match c.from(0, 19) {
        0..=2 => bytes[place] = c.number() as u8,
        3..=5 => bytes[place] ^= 1 << c.from(0, 7),
        6 | 7 => bytes[place] = bytes[place].wrapping_add(c.pick(&[1, 0xff])),
        8 | 9 => take_out(c, bytes),
        10 | 11 => put_in(c, bytes),
        12 => bytes.truncate(place),
        13..=15 => put_quantity(c, bytes),
        16 => bytes[place] = c.pick(&[0x80, 0x90, 0xc0, 0xef, 0xf0, 0xf1, 0xf7, 0xf8, 0xff]),
        17 => change_head(c, bytes),
        18 => change_length(c, bytes),
        _ => swap_regions(c, bytes),
    }
}

/// A place in the file; most often in its later half, so that there is something in front of the fault.
fn some_place(c: &mut Chance, bytes: &[u8]) -> usize {
    let last = bytes.len() as i64 - 1;
    let low = c.pick(&[0, last / 2, last / 2]);
    c.from(low, last) as usize
}

pub(super) fn take_out(c: &mut Chance, bytes: &mut Vec<u8>) {
    let from = some_place(c, bytes);
    let to = (from + c.pick(&[1, 1, 2, 3, 4, 20])).min(bytes.len());
    bytes.drain(from..to);
}

pub(super) fn put_in(c: &mut Chance, bytes: &mut Vec<u8>) {
    let at = c.from(0, bytes.len() as i64) as usize;
    let more: Vec<u8> = (0..c.pick(&[1, 1, 2, 3, 4, 20])).map(|_| c.number() as u8).collect();
    bytes.splice(at..at, more);
}

/// A quantity of one to five bytes in the place of a byte, large or small.
fn put_quantity(c: &mut Chance, bytes: &mut Vec<u8>) {
    let at = some_place(c, bytes);
    let length = c.pick(&[1, 2, 3, 4, 4, 4, 5]);
    let value = c.number() as u32 >> c.from(0, 31);
    bytes.splice(at..at + 1, quantity_in(value, length));
}

/// A byte of the head: its format, tracks and division more often than its name and length.
fn change_head(c: &mut Chance, bytes: &mut [u8]) {
    let place = c.pick(&[0, 3, 4, 7, 8, 9, 9, 10, 11, 11, 12, 12, 13]);
    if place < bytes.len() {
        bytes[place] = c.pick(&[0, 1, 2, 5, 6, 7, 0x80, 0xe2, 0xff]);
    }
}

/// The track's length, a little or wholly.
fn change_length(c: &mut Chance, bytes: &mut [u8]) {
    let Some((field, _)) = track(bytes) else { return };
    let length = u32::from_be_bytes([field[0], field[1], field[2], field[3]]);
    let any = c.number() as u32;
    let other = c.pick(&[length.wrapping_add(1), length.wrapping_sub(1), length / 2, 0, u32::MAX, any]);
    field.copy_from_slice(&other.to_be_bytes());
}

/// Two regions that do not meet change places.
fn swap_regions(c: &mut Chance, bytes: &mut Vec<u8>) {
    let mut cuts = [0; 4].map(|_| some_place(c, bytes));
    cuts.sort();
    let [a, b, d, e] = cuts;
    let swapped = [&bytes[..a], &bytes[d..e], &bytes[b..d], &bytes[a..b], &bytes[e..]].concat();
    *bytes = swapped;
}
