//! The form of merges: lines to the letter, inputs that are damaged, what there is room for; the maker's bytes and what
//! they reach.

use second::make::merge_builder::*;
use second::make::song_builder::*;
use second::make::{merge_chance, merge_streams};
use second::merge_file::merge;
use second::merges::{line, play, with_room};
use second::waves::FILE_ROOM;

fn output(input: &[u8]) -> String {
    let mut output = Vec::new();
    play(input, &mut output).expect("memory can be written");
    String::from_utf8(output).expect("lines of text")
}

/// The hash of bytes, by its definition.
fn fnv(bytes: &[u8]) -> u64 {
    let step = |hash: u64, byte: &u8| (hash ^ *byte as u64).wrapping_mul(0x0000_0100_0000_01b3);
    bytes.iter().fold(0xcbf2_9ce4_8422_2325, step)
}

/// The line of a refusal, behind which the whole room is as it was.
fn refusal(number: u32, place: usize, room: usize) -> String {
    format!("{number} {place} 0 {:016x}\n", fnv(&vec![0xa5; room]))
}

/// The line of two notes, behind which what is not needed of the room is as it was.
fn two_lines(room: usize) -> String {
    let song = merge(&two_notes(), room).expect("a right song");
    let rest = vec![0xa5; room - song.len()];
    format!("0 0 {} {:016x}\n", song.len(), fnv(&[song.as_slice(), &rest].concat()))
}

#[test]
fn lines_of_each_answer() {
    let need = merge(&two_notes(), 100).expect("a right song").len();
    assert_eq!(line(&two_notes(), 100), two_lines(100));
    assert_eq!(line(&two_notes(), need), two_lines(need));
    assert_eq!(line(&two_notes(), need - 1), refusal(43, 0, need - 1));
    assert_eq!(line(&[], 0), "9 0 0 cbf29ce484222325\n");
    assert_eq!(line(&[], 7), refusal(9, 0, 7));
    assert_eq!(line(&with(two_notes(), 9, 2), 7), refusal(10, 8, 7));
    assert_eq!(line(&with(two_notes(), 10, 2), 7), refusal(44, 10, 7));
    assert_eq!(line(&ended(&[then(HOUR + 1, &NOTE)]), 7), refusal(11, TRACK + 3, 7));
}

/// The input may end between two files and nowhere else; what stands in front of the cut is kept.
#[test]
fn an_input_that_is_cut_off_ends_with_bad() {
    let input = [with_room(&two_notes(), 50), with_room(&[], 3), with_room(&two_notes(), 60)].concat();
    let one = with_room(&two_notes(), 50).len();
    let ends = [one, one + 8, input.len()];
    let lines = [two_lines(50), refusal(9, 0, 3), two_lines(60)];
    for length in 0..=input.len() {
        let whole_files = ends.iter().filter(|end| length >= **end).count();
        let between = length == 0 || ends.contains(&length);
        assert_eq!(output(&input[..length]), lines[..whole_files].concat() + if between { "" } else { "bad\n" });
    }
}

#[test]
fn files_and_outputs_of_66000_bytes_have_room_and_no_longer_ones() {
    let behind = with_room(&two_notes(), 50);
    let long = |length: usize, room: u32| output(&[with_room(&vec![0; length], room), behind.clone()].concat());
    assert_eq!(long(66_000, 5), refusal(9, 0, 5) + &two_lines(50));
    assert_eq!(long(5, 66_000), refusal(9, 0, 66_000) + &two_lines(50));
    assert_eq!(long(66_001, 5), "bad\n", "and nothing behind it");
    assert_eq!(long(5, 66_001), "bad\n", "and nothing behind it");
    assert_eq!(long(5, u32::MAX), "bad\n");
}

/// The files of an input, each with its room.
fn files_of(mut input: &[u8]) -> Vec<(&[u8], usize)> {
    let mut list = Vec::new();
    let number =
        |at: usize, input: &[u8]| u32::from_le_bytes(input[at..at + 4].try_into().expect("four bytes")) as usize;
    while !input.is_empty() {
        let (file, behind) = input[8..].split_at(number(0, input));
        list.push((file, number(4, input)));
        input = behind;
    }
    list
}

#[test]
fn the_merge_maker_writes_the_same_bytes_each_time() {
    let stream = merge_streams::stream();
    assert!(stream == merge_streams::stream());
    assert!(stream.len() < 1_000_000, "{} bytes", stream.len());
    let lines = output(&stream);
    assert!(!lines.ends_with("bad\n"));
    assert_eq!(merge_streams::all().len(), lines.lines().count());
}

/// Every number is given by many files, and each place of the head that can be at fault; what is merged is of every form
/// that is written.
#[test]
fn the_merge_cases_reach_every_answer() {
    let stream = merge_streams::stream();
    let files = files_of(&stream);
    let answers: Vec<_> = files.iter().map(|(file, room)| merge(file, *room)).collect();
    let faults: Vec<(u32, usize)> =
        answers.iter().filter_map(|answer| answer.as_ref().err()).map(|fault| (fault.number, fault.place)).collect();
    for fault in [(9, 0), (9, 4), (10, 8), (9, 10), (44, 10), (9, 12), (10, 12), (9, 14), (9, 18), (43, 0)] {
        assert!(faults.contains(&fault), "{fault:?}");
    }
    let of = |number: u32| faults.iter().filter(|fault| fault.0 == number).count();
    let counts = [9, 10, 11, 43, 44].map(of);
    assert!(counts.iter().zip([700, 300, 180, 120, 20]).all(|(count, least)| *count >= least), "{counts:?}");
    let songs: Vec<&Vec<u8>> = answers.iter().flatten().collect();
    assert!(songs.len() >= 1_000, "{} songs", songs.len());
    let longer =
        files.iter().zip(&answers).filter(|((file, _), answer)| answer.as_ref().is_ok_and(|s| s.len() > file.len()));
    assert!(longer.count() >= 10);
    let same = files.iter().zip(&answers).filter(|((file, _), answer)| answer.as_ref().is_ok_and(|song| song == file));
    assert!(same.count() >= 200, "merged songs, merged again");
    let bridged = songs.iter().filter(|song| song.windows(6).any(|six| six == [0xff, 0xff, 0xff, 0x7f, 0xff, 0x51]));
    assert!(bridged.count() >= 150);
    assert!(files.iter().any(|(file, _)| file.len() > 65_536) && songs.iter().any(|song| song.len() > 30_000));
}

/// The damaged inputs end with `bad` but for those that are named for being whole.
#[test]
fn the_damaged_inputs_end_with_bad() {
    for (name, bytes) in merge_streams::damaged() {
        let whole = ["empty", "one-song", "empty-song", "most-length", "most-room", "most-room-refused"];
        assert_eq!(output(&bytes).ends_with("bad\n"), !whole.contains(&name.as_str()), "{name}");
    }
}

/// Files by chance: two fifths are merged, and some are refused with each number.
#[test]
fn chance_gives_a_mix_of_answers() {
    let [input, same, other] = [3, 3, 4].map(|seed| {
        let mut out = Vec::new();
        merge_chance::write(seed, 4_000, &mut out).expect("memory can be written");
        out
    });
    assert!(input == same && input != other);
    let files = files_of(&input);
    assert_eq!(files.len(), 4_000);
    assert!(files.iter().all(|(file, room)| file.len() <= FILE_ROOM as usize && *room <= FILE_ROOM as usize));
    let numbers: Vec<u32> = files.iter().map(|(file, room)| merge(file, *room).err().map_or(0, |f| f.number)).collect();
    let counts = [0, 9, 11, 43, 10, 44].map(|number| numbers.iter().filter(|found| **found == number).count());
    assert!(counts.iter().zip([1_600, 600, 200, 400, 1, 1]).all(|(count, least)| *count >= least), "{counts:?}");
}
