//! Case files that are themselves damaged: cut off, too large, unknown letters. Each is a file of its own.

use super::bank_builder::{one_zone, quick, sample};
use super::script::{noise, Script};
use crate::case::{BANK_ROOM, OUTPUT_ROOM, SONG_ROOM};
use std::collections::BTreeSet;

/// The commands with the number of bytes that follow the letter; those with a length are cut off further below.
const FIXED: [(u8, usize); 15] = [
    (b'm', 4),
    (b'x', 4),
    (b'F', 4),
    (b'l', 4),
    (b'n', 3),
    (b'o', 2),
    (b'c', 3),
    (b'p', 2),
    (b'b', 3),
    (b'r', 8),
    (b's', 1),
    (b't', 1),
    (b'B', 4),
    (b'j', 4),
    (b'h', 4),
];

/// Each damaged case with its name, for a player with so much room in each memory.
pub fn all(memory_room: u32) -> Vec<(String, Vec<u8>)> {
    let mut list = vec![("empty".to_string(), Vec::new())];
    list.extend(cut_numbers(&FIXED));
    list.extend(unknown_letters());
    list.extend(cut_bodies(&[(b'B', 5), (b'M', 9), (b'O', 9)]));
    list.push(("body-t".to_string(), after_start(b't', b"\x05name")));
    list.extend(too_large(memory_room));
    list.extend(not_playable());
    list.push(("nothing-behind".to_string(), after_start(b'?', b"s\0s\0a")));
    list
}

/// The same of the player's letters. G, H and E have nothing behind them that could be cut off; their lines come first.
pub fn of_player() -> Vec<(String, Vec<u8>)> {
    let number = |n: u32| n.to_le_bytes().to_vec();
    let behind = |letter: u8| (format!("behind-{}", file_letter(letter)), after_start(letter, b"?"));
    let mut list = [b'G', b'H', b'E'].map(behind).to_vec();
    list.extend(cut_numbers(&[(b'L', 4), (b'V', 8)]));
    list.extend(cut_bodies(&[(b'L', 5)]));
    for (name, length) in [("", SONG_ROOM + 1), ("-65536-more", SONG_ROOM + 65_536), ("-most", u32::MAX)] {
        list.push((format!("large-ll{name}"), after_start(b'L', &number(length))));
    }
    for (name, length) in [("", OUTPUT_ROOM + 1), ("-most", u32::MAX)] {
        list.push((format!("large-vv{name}"), after_start(b'V', &[number(3), number(length)].concat())));
    }
    list
}

/// Commands with so many bytes behind the letter, cut off in front of the first, in the middle and in front of the last.
fn cut_numbers(letters: &[(u8, usize)]) -> Vec<(String, Vec<u8>)> {
    let mut list = Vec::new();
    for (letter, bytes) in letters {
        let shorts: BTreeSet<usize> = [0, bytes / 2, bytes - 1].into();
        for short in shorts {
            let name = format!("cut-{}-{short}", file_letter(*letter));
            list.push((name, after_start(*letter, &[1, 0, 0, 0, 0, 0, 0, 0][..short])));
        }
    }
    list
}

/// Capital letters are written twice, since some file systems do not tell them from small ones.
fn file_letter(letter: u8) -> String {
    let small = (letter as char).to_ascii_lowercase().to_string();
    small.repeat(if letter.is_ascii_uppercase() { 2 } else { 1 })
}

/// A short good case with a command behind it.
fn after_start(letter: u8, bytes: &[u8]) -> Vec<u8> {
    let mut s = Script::default();
    let plan = one_zone(&quick(&[(54, 1)]), sample(0, 8));
    s.begin_plan("before", &plan, &noise(8, 90));
    s.on(0, 60, 100);
    s.go(3);
    s.bytes.push(letter);
    s.bytes.extend_from_slice(bytes);
    s.bytes
}

fn unknown_letters() -> Vec<(String, Vec<u8>)> {
    let letters = [0u8, b'\n', b' ', b'A', b'N', b'f', b'q', b'z', 0x80, 0xff];
    let list = letters.iter();
    list.map(|&l| (format!("unknown-{l:02x}"), after_start(l, &[]))).collect()
}

/// Lengths that promise one byte more than comes: of bytes, or of samples of two bytes.
fn cut_bodies(letters: &[(u8, usize)]) -> Vec<(String, Vec<u8>)> {
    let mut list = Vec::new();
    for (letter, body) in letters {
        for have in [0, *body] {
            let mut bytes = vec![if *body == 5 { 6 } else { 5 }, 0, 0, 0];
            bytes.extend(vec![7; have]);
            list.push((format!("body-{}-{have}", file_letter(*letter)), after_start(*letter, &bytes)));
        }
    }
    list
}

/// What is just too large, and what is far too large.
fn too_large(memory_room: u32) -> Vec<(String, Vec<u8>)> {
    let number = |n: u32| n.to_le_bytes().to_vec();
    let render = |n: u32| [number(3), number(n)].concat();
    vec![
        ("large-bb".to_string(), after_start(b'B', &number(BANK_ROOM + 1))),
        ("large-bb-most".to_string(), after_start(b'B', &number(u32::MAX))),
        ("large-mm".to_string(), after_start(b'M', &number(memory_room + 1))),
        ("large-mm-most".to_string(), after_start(b'M', &number(u32::MAX))),
        ("large-oo".to_string(), after_start(b'O', &number(memory_room + 1))),
        ("large-oo-half".to_string(), after_start(b'O', &number(0x8000_0001))),
        ("large-r".to_string(), after_start(b'r', &render(OUTPUT_ROOM + 1))),
        ("large-r-most".to_string(), after_start(b'r', &render(u32::MAX))),
    ]
}

/// Keys and velocities that no hammer strikes, each at its edge.
fn not_playable() -> Vec<(String, Vec<u8>)> {
    let strokes = [("key", 128, 100), ("velocity-none", 60, 0), ("velocity", 60, 128), ("both", 255, 255)];
    let file = |(name, key, velocity)| (format!("hammer-{name}"), after_start(b'h', &[0, 0, key, velocity]));
    strokes.map(file).to_vec()
}
