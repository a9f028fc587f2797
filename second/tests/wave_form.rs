//! The form of waves: lines to the letter, inputs that are damaged, what there is room for; the maker's bytes and what
//! they reach; what noise gives.

use second::make::wave_builder::*;
use second::make::{wave_chance, wave_streams};
use second::waves::play;
use std::collections::BTreeMap;

fn output(input: &[u8]) -> String {
    let mut output = Vec::new();
    play(input, &mut output).expect("memory can be written");
    String::from_utf8(output).expect("lines of text")
}

/// A frame of one and minus one.
const FRAME: [u32; 2] = [0x3f80_0000, 0xbf80_0000];

fn file_of_frame() -> Vec<u8> {
    file_of(&[0xff, 0x7f, 0, 0x80])
}

/// The hashes are of the 48 bytes of the file, of so many bytes a5, of ff 7f 00 80 34 12, of 34 12 once and of nothing.
#[test]
fn lines_of_each_answer() {
    let commands = [
        (write_command(&FRAME, 48), "W 0 67a0ebadeb29f104\n"),
        (write_command(&FRAME, 47), "W 15 f3f6537639e72cb2\n"),
        (write_command(&FRAME[..1], 47), "W 13 f3f6537639e72cb2\n"),
        (write_command(&[0x3f80_0001, 0], 0), "W 13 cbf29ce484222325\n"),
        (read_command(&file_of_frame(), 3), "R 0 1 de37b88a6bef437d\n"),
        (read_command(&file_of_frame(), 1), "R 15 0 07ee9e07b4b1c883\n"),
        (read_command(&[], 1), "R 28 0 07ee9e07b4b1c883\n"),
        (read_command(&file(0), 0), "R 0 0 cbf29ce484222325\n"),
    ];
    let input: Vec<u8> = commands.iter().flat_map(|(command, _)| command.clone()).collect();
    assert_eq!(output(&input), commands.map(|(_, line)| line).concat());
}

/// What is behind the file in a longer output stays as it was.
#[test]
fn the_rest_of_the_output_stays() {
    let file = file_of_frame();
    let hash = |bytes: Vec<u8>| {
        bytes.iter().fold(0xcbf2_9ce4_8422_2325u64, |h, byte| (h ^ *byte as u64).wrapping_mul(0x100_0000_01b3))
    };
    let written = hash([file.clone(), vec![0xa5; 12]].concat());
    assert_eq!(output(&write_command(&FRAME, 60)), format!("W 0 {written:016x}\n"));
    let heard = hash(vec![0xff, 0x7f, 0, 0x80, 0x34, 0x12, 0x34, 0x12]);
    assert_eq!(output(&read_command(&file, 4)), format!("R 0 1 {heard:016x}\n"));
}

/// The input may end between two commands and nowhere else; what stands in front of the cut is kept.
#[test]
fn an_input_that_is_cut_off_ends_with_bad() {
    let commands = [write_command(&FRAME, 48), read_command(&file_of_frame(), 3), write_command(&[], 0)];
    let lines = ["W 0 67a0ebadeb29f104\n", "R 0 1 de37b88a6bef437d\n", "W 15 cbf29ce484222325\n"];
    let ends: Vec<usize> = (0..=3).map(|count| commands[..count].concat().len()).collect();
    let input = commands.concat();
    for length in 0..=input.len() {
        let whole = ends.iter().filter(|end| **end <= length).count() - 1;
        let before = lines[..whole].concat();
        assert_eq!(output(&input[..length]), before + if ends.contains(&length) { "" } else { "bad\n" });
    }
}

#[test]
fn there_is_room_for_8448_numbers_and_66000_bytes_and_no_more() {
    let good = write_command(&FRAME, 48);
    let lines = |command: Vec<u8>| output(&[command, good.clone()].concat()).lines().count();
    for (command, right) in [
        (write_command(&[0; 8_448], 66_000), 2),
        (write_command(&[0; 8_449], 0), 1),
        (write_command(&[], 66_001), 1),
        (read_command(&[0; 66_000], 8_448), 2),
        (read_command(&[0; 66_001], 0), 1),
        (read_command(&[], 8_449), 1),
    ] {
        assert_eq!(lines(command), right);
    }
    assert_eq!(output(&write_command(&[0; 8_449], 0)), "bad\n");
    assert_eq!(output(&[b'W', 0xff, 0xff, 0xff, 0xff]), "bad\n");
    assert_eq!(output(&[b'R', 0xff, 0xff, 0xff, 0xff]), "bad\n");
}

#[test]
fn another_letter_is_bad() {
    for letter in (0..=255).filter(|letter| !b"WR".contains(letter)) {
        assert_eq!(output(&[vec![letter], write_command(&FRAME, 48)].concat()), "bad\n", "{letter:02x}");
    }
}

/// How often each letter has each number.
fn answers(input: &[u8]) -> BTreeMap<String, usize> {
    let mut answers = BTreeMap::new();
    for line in output(input).lines() {
        let words: Vec<&str> = line.split(' ').take(2).collect();
        *answers.entry(words.join(" ")).or_default() += 1;
    }
    answers
}

const EVERY_ANSWER: [&str; 6] = ["R 0", "R 15", "R 28", "W 0", "W 13", "W 15"];

#[test]
fn the_wave_maker_writes_the_same_bytes_each_time_and_reaches_every_answer() {
    let stream = wave_streams::stream();
    assert!(stream == wave_streams::stream());
    assert!(stream.len() < 1_000_000, "{} bytes", stream.len());
    assert_eq!(output(&stream).lines().count(), wave_streams::all().len());
    let answers = answers(&stream);
    assert!(answers.keys().eq(EVERY_ANSWER), "{answers:?}");
    assert!(answers.values().all(|count| *count >= 50), "{answers:?}");
}

/// The damaged inputs end with `bad` but for those that are named for being whole.
#[test]
fn the_damaged_inputs_end_with_bad() {
    for (name, bytes) in wave_streams::damaged() {
        let whole = ["empty", "good", "most-numbers", "most-bytes"].contains(&name.as_str());
        assert_eq!(output(&bytes).ends_with("bad\n"), !whole, "{name}");
    }
}

fn noise(seed: u64, count: u64) -> Vec<u8> {
    let mut out = Vec::new();
    wave_chance::write(seed, count, &mut out).expect("memory can be written");
    out
}

#[test]
fn noise_is_the_same_for_the_same_seed_and_gives_a_mix_of_answers() {
    let input = noise(5, 4_000);
    assert!(input == noise(5, 4_000));
    assert!(input != noise(6, 4_000));
    let answers = answers(&input);
    assert!(answers.keys().eq(EVERY_ANSWER), "{answers:?}");
    assert!(answers.values().sum::<usize>() == 4_000 && answers.values().all(|count| *count >= 100), "{answers:?}");
}
