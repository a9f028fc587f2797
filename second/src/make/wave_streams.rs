//! Waves in their form on the input: all commands one behind the other, and inputs that are themselves damaged, each by
//! itself.

use super::wave_builder::*;
use super::{wave_chance, wave_read_cases, wave_write_cases};
use crate::waves::{FILE_ROOM, NUMBER_ROOM};

/// All commands.
pub fn all() -> Vec<Named> {
    [wave_write_cases::all(), wave_read_cases::all(), wave_chance::all()].concat()
}

/// The input of all commands.
pub fn stream() -> Vec<u8> {
    all().into_iter().flat_map(|(_, command)| command).collect()
}

/// A frame that is written, and a file of a frame that is read.
fn good() -> [(&'static str, Vec<u8>); 2] {
    [("write", write_command(&ramp(2), 48)), ("read", read_command(&file(1), 2))]
}

/// Bytes behind the good commands.
fn after_good(bytes: &[u8]) -> Vec<u8> {
    let [(_, write), (_, read)] = good();
    [&write, &read, bytes].concat()
}

/// Inputs that end with `bad`, and those that just do not.
pub fn damaged() -> Vec<Named> {
    let mut list = vec![
        ("empty".to_string(), vec![]),
        ("good".to_string(), after_good(&[])),
        ("nothing-behind".to_string(), after_good(&[&b"?"[..], &after_good(&[])].concat())),
    ];
    list.extend(unknown_letters());
    list.extend(cut_off());
    list.extend(too_large());
    list
}

/// Letters of other forms, small ones, and bytes that are no letters.
fn unknown_letters() -> Vec<Named> {
    let letters = [0u8, b'\n', b' ', b'r', b't', b'w', b'B', b'V', 0x80, 0xff];
    letters.map(|letter| (format!("unknown-{letter:02x}"), after_good(&[letter, 0, 0, 0, 0, 0, 0, 0, 0]))).to_vec()
}

/// Each command cut off at every byte of its count and its room and at some of what is between, as the first of an input
/// and behind others.
fn cut_off() -> Vec<Named> {
    let of = |(name, command): (&'static str, Vec<u8>)| {
        let end = command.len();
        let places = [1, 2, 3, 4, 5, 6, end - 5, end - 4, end - 3, end - 2, end - 1];
        places.into_iter().flat_map(move |cut| {
            let first = (format!("cut-{name}-{cut}"), command[..cut].to_vec());
            [first, (format!("later-cut-{name}-{cut}"), after_good(&command[..cut]))]
        })
    };
    good().into_iter().flat_map(of).collect()
}

/// What is just too large, and what is far too large; all of it is there, as far as that can be, and a good command
/// behind it. And what is just not too large.
fn too_large() -> Vec<Named> {
    let [numbers, bytes] = [NUMBER_ROOM as usize, FILE_ROOM as usize];
    let far = |letter: u8, count: u32| [&[letter], count.to_le_bytes().as_slice(), &[0; 64]].concat();
    let list = [
        ("most-numbers", write_command(&vec![0; numbers], FILE_ROOM)),
        ("large-numbers", write_command(&vec![0; numbers + 1], 0)),
        ("large-numbers-signed", far(b'W', 0x8000_0000)),
        ("large-numbers-fourfold", far(b'W', 0x4000_0001)),
        ("large-numbers-most", far(b'W', u32::MAX)),
        ("large-write-room", write_command(&ramp(2), FILE_ROOM + 1)),
        ("large-write-room-refused", write_command(&ramp(1), FILE_ROOM + 1)),
        ("large-write-room-signed", write_command(&ramp(2), 0x8000_0000)),
        ("large-write-room-most", write_command(&ramp(2), u32::MAX)),
        ("most-bytes", read_command(&vec![0; bytes], NUMBER_ROOM)),
        ("large-bytes", read_command(&vec![0; bytes + 1], 0)),
        ("large-bytes-65536-more", far(b'R', FILE_ROOM + 65_536)),
        ("large-bytes-signed", far(b'R', 0x8000_0000)),
        ("large-bytes-most", far(b'R', u32::MAX)),
        ("large-read-room", read_command(&file(1), NUMBER_ROOM + 1)),
        ("large-read-room-refused", read_command(&[], NUMBER_ROOM + 1)),
        ("large-read-room-signed", read_command(&file(1), 0x8000_0000)),
        ("large-read-room-most", read_command(&file(1), u32::MAX)),
    ];
    list.map(|(name, command)| (name.to_string(), after_good(&[command, good()[0].1.clone()].concat()))).to_vec()
}
