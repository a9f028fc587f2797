//! The form of songs: lines to the letter, inputs that are damaged, what there is room for; the maker's bytes and what
//! they reach; what damage does.

use second::make::song_builder::*;
use second::make::{song_damage, song_streams};
use second::midi_file::{read, Fault, LONGEST_FILE};
use second::songs::{lines, play, with_length};

fn output(input: &[u8]) -> String {
    let mut output = Vec::new();
    play(input, &mut output).expect("memory can be written");
    String::from_utf8(output).expect("lines of text")
}

fn tune() -> Vec<u8> {
    Piece::default().then(96, &NOTE).then(96, &[60, 0]).then(0, &[0xcf, 5]).then(0, &[10]).song()
}

const LINES_OF_TUNE: &str = "22050 90 3c 40\n44100 90 3c 00\n44100 cf 05\n44100 cf 0a\n0 4\n";

#[test]
fn lines_of_each_answer() {
    let other_format = [head(1, 1, 96), tune()[14..].to_vec()].concat();
    let late = Piece::default().then(LARGEST_QUANTITY, &NOTE).song();
    let silent = Piece::default().song();
    let files = [tune(), vec![], other_format, late, silent, tune()];
    let input: Vec<u8> = files.iter().flat_map(|file| with_length(file)).collect();
    assert_eq!(output(&input), format!("{LINES_OF_TUNE}9 0\n10 8\n11 26\n0 0\n{LINES_OF_TUNE}"));
}

/// The input may end between two files and nowhere else; what stands in front of the cut is kept.
#[test]
fn an_input_that_is_cut_off_ends_with_bad() {
    let input = [with_length(&tune()), with_length(&[]), with_length(&tune())].concat();
    let one = with_length(&tune()).len();
    for length in 0..=input.len() {
        let whole_files = [one, one + 4, input.len()].iter().filter(|end| length >= **end).count();
        let between = [0, one, one + 4, input.len()].contains(&length);
        let before = [LINES_OF_TUNE, "9 0\n", LINES_OF_TUNE][..whole_files].concat();
        assert_eq!(output(&input[..length]), before + if between { "" } else { "bad\n" });
    }
}

#[test]
fn a_file_of_66000_bytes_has_room_and_no_longer_one() {
    let long = |length: usize| [with_length(&vec![0; length]), with_length(&tune())].concat();
    assert_eq!(output(&long(66_000)), format!("9 65536\n{LINES_OF_TUNE}"));
    assert_eq!(output(&long(66_001)), "bad\n", "and nothing behind it");
    assert_eq!(output(&u32::MAX.to_le_bytes()), "bad\n");
}

#[test]
fn the_song_maker_writes_the_same_bytes_each_time() {
    let stream = song_streams::stream();
    assert!(stream == song_streams::stream());
    assert!(stream.len() < 1_500_000, "{} bytes", stream.len());
    let lines = output(&stream);
    assert!(!lines.contains("bad"));
    assert_eq!(song_streams::all().len(), lines.lines().filter(|line| line.split(' ').count() == 2).count());
}

/// Every number is given by many files, and each place of the head that can be at fault.
#[test]
fn the_song_cases_reach_every_answer() {
    let files = song_streams::all();
    let answers: Vec<_> = files.iter().map(|(_, file)| read(file)).collect();
    let refused = |number, place| answers.contains(&Err(Fault { number, place }));
    for (number, place) in [(9, 0), (9, 4), (10, 8), (9, 10), (9, 12), (10, 12), (9, 14), (9, 18), (9, LONGEST_FILE)] {
        assert!(refused(number, place), "{number} at {place}");
    }
    let of = |number| answers.iter().filter(|answer| answer.as_ref().is_err_and(|f| f.number == number)).count();
    assert!(of(9) >= 1_500 && of(10) >= 20 && of(11) >= 100);
    assert!(answers.iter().filter(|answer| answer.as_ref().is_ok_and(|events| !events.is_empty())).count() >= 800);
    assert!(answers.iter().flatten().flatten().any(|(frame, _)| *frame == 158_760_000), "a note at the hour");
    let kinds: Vec<u8> = answers.iter().flatten().flatten().map(|(_, bytes)| bytes[0]).collect();
    assert!((0x80..=0xef).all(|status| kinds.contains(&status)));
    assert!(files.iter().any(|(_, file)| file.len() == 65_536) && files.iter().any(|(_, file)| file.len() == 66_000));
}

/// The damaged inputs end with `bad` but for those that are named for being whole.
#[test]
fn the_damaged_inputs_end_with_bad() {
    for (name, bytes) in song_streams::damaged() {
        let whole = ["empty", "one-song", "empty-song", "most-length"].contains(&name.as_str());
        assert_eq!(output(&bytes).ends_with("bad\n"), !whole, "{name}");
    }
}

// Damage

fn damage(seed: u64, count: u64, files: &[Vec<u8>]) -> Vec<u8> {
    let mut out = Vec::new();
    song_damage::write(seed, count, files, &mut out).expect("memory can be written");
    out
}

/// The files of an input.
fn files_of(mut input: &[u8]) -> Vec<&[u8]> {
    let mut list = Vec::new();
    while let Some((length, rest)) = input.split_first_chunk::<4>() {
        let (file, behind) = rest.split_at(u32::from_le_bytes(*length) as usize);
        list.push(file);
        input = behind;
    }
    list
}

/// Of damaged songs of our own, at least a fifth are played, two fifths are refused 9 in the track, and some with each
/// other number, in the head and in the chunks.
#[test]
fn damage_gives_a_mix_of_answers() {
    let input = damage(5, 4_000, &[]);
    let answers: Vec<_> = files_of(&input).iter().map(|file| read(file)).collect();
    assert_eq!(answers.len(), 4_000);
    let played = answers.iter().filter(|answer| answer.as_ref().is_ok_and(|events| !events.is_empty())).count();
    let faults: Vec<&Fault> = answers.iter().filter_map(|answer| answer.as_ref().err()).collect();
    let count = |what: fn(&&&Fault) -> bool| faults.iter().filter(what).count();
    let in_track = count(|f| f.number == 9 && f.place >= TRACK);
    let in_front = count(|f| f.number == 9 && f.place < TRACK);
    let [formats, late] = [count(|f| f.number == 10), count(|f| f.number == 11)];
    let shares = format!("{played} {in_track} {in_front} {formats} {late}");
    assert!(played >= 800 && in_track >= 1_600 && in_front >= 200 && formats >= 40 && late >= 80, "{shares}");
}

#[test]
fn damage_is_the_same_for_the_same_seed_and_changes_the_files() {
    let given = [tune(), Piece::default().then(7, &[0xc0, 1]).song()];
    let input = damage(8, 300, &given);
    assert!(input == damage(8, 300, &given));
    assert!(input != damage(9, 300, &given));
    let changed = files_of(&input).iter().filter(|file| !given.iter().any(|one| one == *file)).count();
    assert!(changed >= 270, "{changed} of 300 are other files");
}

#[test]
fn damage_takes_any_file_and_keeps_to_the_room() {
    for file in [vec![], vec![0x4d], b"MThd".to_vec(), vec![7; 66_000], vec![7; 70_000]] {
        let input = damage(1, 60, &[file]);
        assert_eq!(files_of(&input).len(), 60);
        assert!(files_of(&input).iter().all(|file| file.len() <= 66_000 && !lines(file).is_empty()));
    }
}
