//! Waves that are read: headings wrong in each place and field, lengths, rooms, the order of the refusals, data, and
//! files that were written before.

use super::wave_builder::*;
use crate::wave_file;
use crate::waves::{FILE_ROOM, NUMBER_ROOM};
use std::collections::BTreeSet;

pub fn all() -> Vec<Named> {
    [
        lengths(),
        lengths_that_the_heading_names(),
        one_byte_off(),
        fields(),
        fields_the_other_way_round(),
        other_kinds_of_file(),
        rooms(),
        wrong_and_no_room(),
        data(),
        what_was_written(),
        largest(),
    ]
    .concat()
}

/// Room for three frames.
const ROOM: u32 = 6;

fn read_as(name: &str, file: &[u8]) -> Named {
    (name.to_string(), read_command(file, ROOM))
}

// Lengths

/// A file cut off at every byte, and with bytes behind it.
fn lengths() -> Vec<Named> {
    let whole = file(3);
    let cut = (0..=whole.len()).map(|length| read_as(&format!("the first {length} bytes"), &whole[..length]));
    let longer = (1..=9).map(|more| read_as(&format!("{more} bytes behind"), &[file(1), vec![0; more]].concat()));
    cut.chain(longer).collect()
}

/// Data of each length that the heading names as well; only fours are frames. And a heading that names more or less.
fn lengths_that_the_heading_names() -> Vec<Named> {
    let named_length = |length: usize| read_as(&format!("{length} bytes of data"), &file_of(&vec![0x5a; length]));
    let other = |more: i32| {
        let size = (8 + more) as u32;
        let name = format!("8 bytes of data and {size} named");
        read_as(&name, &[Heading::of(size).bytes(), vec![0x5a; 8]].concat())
    };
    (0..=13).map(named_length).chain((-8..=8).map(other)).collect()
}

// Headings

/// One of the 44 bytes one up, one down, and with each of its bits changed, in files of none and of two frames.
fn one_byte_off() -> Vec<Named> {
    let of = |place: usize| {
        let right = file(2);
        let byte = right[place];
        let others: BTreeSet<u8> = [byte.wrapping_add(1), byte.wrapping_sub(1), 0, 0xff, b' ']
            .into_iter()
            .chain((0..8).map(|bit| byte ^ (1 << bit)))
            .filter(|other| *other != byte)
            .collect();
        let with = move |other: u8| {
            let mut file = right.clone();
            file[place] = other;
            read_as(&format!("byte {place} is {other:02x}"), &file)
        };
        let mut none = file(0);
        none[place] ^= 1;
        others.into_iter().map(with).chain([read_as(&format!("byte {place} is another, no frame"), &none)])
    };
    (0..44).flat_map(of).collect()
}

/// Headings for two frames of which one field says something else that other files have there.
fn fields() -> Vec<Named> {
    let right = Heading::of(8);
    let names = [
        Heading { riff: *b"RIFX", ..right },
        Heading { riff: *b"riff", ..right },
        Heading { riff: *b"RF64", ..right },
        Heading { riff: *b"FORM", ..right },
        Heading { wave: *b"wave", ..right },
        Heading { wave: *b"AVI ", ..right },
        Heading { fmt: *b"FMT ", ..right },
        Heading { fmt: *b"fmt\0", ..right },
        Heading { data: *b"DATA", ..right },
        Heading { data: *b"fact", ..right },
        Heading { data: *b"LIST", ..right },
    ];
    let behind = [0, 8, 36, 40, 43, 45, 48, 52, u32::MAX].map(|behind| Heading { behind, ..right });
    let fmt_sizes = [0, 14, 15, 17, 18, 40, u32::MAX].map(|fmt_size| Heading { fmt_size, ..right });
    let formats = [0, 2, 3, 6, 7, 0x55, 256, 65_534, 65_535].map(|format| Heading { format, ..right });
    let channels = [0, 1, 3, 4, 6, 512, 65_535].map(|channels| Heading { channels, ..right });
    let rates = [0, 8_000, 22_050, 44_099, 44_101, 48_000, 96_000].map(|rate| Heading { rate, ..right });
    let a_second = [0, 44_100, 88_200, 176_399, 176_401, 192_000];
    let a_second = a_second.map(|bytes_a_second| Heading { bytes_a_second, ..right });
    let blocks = [0, 1, 2, 3, 5, 8, 1_024].map(|block| Heading { block, ..right });
    let bits = [0, 8, 12, 15, 17, 24, 32, 4_096].map(|bits| Heading { bits, ..right });
    let sizes = [0, 2, 4, 7, 9, 12, 44, 52, 0x0100_0008, u32::MAX].map(|size| Heading { size, ..right });
    let all = [&names[..], &behind, &fmt_sizes, &formats, &channels, &rates, &a_second, &blocks, &bits, &sizes];
    let file = |heading: Heading| read_as("a field", &[heading.bytes(), vec![7; 8]].concat());
    all.concat().into_iter().map(file).collect()
}

/// The bytes of each field from the last to the first, as files for other machines have them; and of all numbers.
fn fields_the_other_way_round() -> Vec<Named> {
    let fields = [4..8, 16..20, 20..22, 22..24, 24..28, 28..32, 32..34, 34..36, 40..44];
    let turned = |which: &[std::ops::Range<usize>]| {
        let mut file = file(2);
        which.iter().for_each(|field| file[field.clone()].reverse());
        read_as(&format!("{which:?} turned round"), &file)
    };
    fields.iter().map(|field| turned(std::slice::from_ref(field))).chain([turned(&fields)]).collect()
}

/// What other writers make of two frames: sizes left open, a longer heading, a chunk in front of the data or behind it,
/// other samples.
fn other_kinds_of_file() -> Vec<Named> {
    let (data, right) = ([7u8; 8], Heading::of(8));
    let [head, end] = [&right.bytes()[..36], &right.bytes()[36..]];
    let list = b"LIST\x04\0\0\0INFO";
    let eight_bits = Heading { bits: 8, block: 2, bytes_a_second: 88_200, ..right };
    let mono = Heading { channels: 1, block: 2, bytes_a_second: 88_200, ..right };
    let studio = Heading { rate: 48_000, bytes_a_second: 192_000, ..right };
    let floats = Heading { format: 3, bits: 32, block: 8, bytes_a_second: 352_800, ..right };
    let open = Heading { behind: u32::MAX, size: u32::MAX, ..right };
    let longer = [&head[..16], &18u32.to_le_bytes(), &head[20..], &[0, 0], end, &data].concat();
    let in_front = [head, list, end, &data].concat();
    let behind = [head, end, &data, list].concat();
    let mended = |mut file: Vec<u8>| {
        let behind = file.len() as u32 - 8;
        file[4..8].copy_from_slice(&behind.to_le_bytes());
        file
    };
    let headings = [eight_bits, mono, studio, floats, open, Heading { behind: 0, size: 0, ..right }];
    let files = headings.map(|heading| [heading.bytes(), data.to_vec()].concat());
    let chunks = [longer, in_front, behind].map(mended);
    let not_at_all = [b"MThd\0\0\0\x06\0\0\0\x01\0\x60MTrk\0\0\0\0".to_vec(), vec![0; 44], vec![0xff; 52]];
    let twice = [[file(1), file(1)].concat(), [vec![0], file(2)].concat(), file(2)[1..].to_vec()];
    let all = files.into_iter().chain(chunks).chain(not_at_all).chain(twice);
    all.map(|file| read_as("another kind of file", &file)).collect()
}

// Rooms

/// Rooms around what a file needs.
fn rooms() -> Vec<Named> {
    let of = |frames: usize| {
        let need = 2 * frames as u32;
        let near = [0, 1, 2, need.saturating_sub(2), need.saturating_sub(1), need, need + 1, need + 2, 2 * need + 44];
        let near: BTreeSet<u32> = near.into();
        near.into_iter().map(move |room| (format!("{frames} frames into {room}"), read_command(&file(frames), room)))
    };
    [0, 1, 2, 3, 10, 63, 64, 65, 100].into_iter().flat_map(of).collect()
}

/// 28 goes before 15: files with a fault at each place, and no room or one number short of it.
fn wrong_and_no_room() -> Vec<Named> {
    let of = |place: usize| {
        let mut file = file(2);
        file[place] ^= 0x20;
        [0, 3].map(|room| (format!("byte {place} is another, into {room}"), read_command(&file, room)))
    };
    let lengths = [0, 1, 43, 45, 47, 49, 51]
        .map(|length| (format!("the first {length} bytes and no room"), read_command(&file(2)[..length], 0)));
    (0..44).flat_map(of).chain(lengths).collect()
}

// Data

/// Numbers at the ends of their range and of their bytes, alone and together.
fn data() -> Vec<Named> {
    let numbers = [
        0x8000, 0x8001, 0x80ff, 0x8100, 0xfeff, 0xff00, 0xff7f, 0xff80, 0xffff, 0, 1, 0x7f, 0x80, 0xff, 0x100, 0x1234,
        0x3412, 0x7eff, 0x7f00, 0x7fff,
    ];
    let bytes = |numbers: &[u16]| numbers.iter().flat_map(|number| number.to_le_bytes()).collect::<Vec<u8>>();
    let alone =
        |number: u16| [[number, 0], [0, number]].map(|pair| read_as(&format!("{number:04x}"), &file_of(&bytes(&pair))));
    let together = ("together".to_string(), read_command(&file_of(&bytes(&numbers)), 20));
    let a_file_in_a_file = ("a file in a file".to_string(), read_command(&file_of(&file(1)), 24));
    numbers.into_iter().flat_map(alone).chain([together, a_file_in_a_file]).collect()
}

/// Numbers that are written, and the file of them that is read; then its numbers, written in turn.
fn what_was_written() -> Vec<Named> {
    let of = |frames: usize| {
        let numbers: Vec<f32> = ramp(2 * frames).into_iter().map(f32::from_bits).collect();
        let room = room_for(2 * frames);
        let file = wave_file::write(&numbers, room as usize).expect("output numbers");
        let heard = file[44..].chunks_exact(2).map(|pair| i16::from_le_bytes([pair[0], pair[1]]));
        let again: Vec<u32> = heard.map(|level| whole(256 * level as i32)).collect();
        [
            (format!("{frames} frames written"), write_command(&ramp(2 * frames), room)),
            (format!("{frames} frames read"), read_command(&file, 2 * frames as u32)),
            (format!("{frames} frames written again"), write_command(&again, room)),
        ]
    };
    [0, 1, 2, 5, 31, 256, 1_000].into_iter().flat_map(of).collect()
}

/// The largest that there is room for, and files that are longer than any output.
fn largest() -> Vec<Named> {
    let most = NUMBER_ROOM as usize / 2;
    let longest = (FILE_ROOM as usize - 44) / 4;
    let mut odd = file(longest);
    odd.pop();
    vec![
        ("the most frames".to_string(), read_command(&file(most), NUMBER_ROOM)),
        ("the most frames, one number short".to_string(), read_command(&file(most), NUMBER_ROOM - 1)),
        ("a frame more".to_string(), read_command(&file(most + 1), NUMBER_ROOM)),
        ("the longest file".to_string(), read_command(&file(longest), NUMBER_ROOM)),
        ("the longest file but a byte".to_string(), read_command(&odd, NUMBER_ROOM)),
        ("no frame into the largest room".to_string(), read_command(&file(0), NUMBER_ROOM)),
    ]
}
