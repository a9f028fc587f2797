//! The carillon and its piece: their bytes by the check sums that settle them, and what they are.

use second::bank_admission::admit;
use second::bells::bank::Carillon;
use second::bells::{piece, write_files};
use second::midi_file;

/// The check sum that zip files use, bit by bit.
fn crc32(bytes: &[u8]) -> u32 {
    let step = |sum: u32, _| if sum & 1 == 1 { sum >> 1 ^ 0xedb8_8320 } else { sum >> 1 };
    !bytes.iter().fold(u32::MAX, |sum, byte| (0..8).fold(sum ^ u32::from(*byte), step))
}

fn crc32_of_samples(samples: &[i16]) -> u32 {
    crc32(&samples.iter().flat_map(|sample| sample.to_le_bytes()).collect::<Vec<u8>>())
}

#[test]
fn the_check_sum_of_nine_digits() {
    assert_eq!(crc32(b"123456789"), 0xcbf4_3926);
}

#[test]
fn the_sounds_by_their_check_sums() {
    let carillon = Carillon::cast();
    let found: Vec<(&str, u32)> =
        carillon.sounds.iter().map(|sound| (sound.name.as_str(), crc32_of_samples(&sound.samples))).collect();
    let expected = [
        ("Strike low", 0xf166_b71f),
        ("Hum low", 0x4913_0cb6),
        ("Strike mid", 0x6e11_de3f),
        ("Hum mid", 0x3f4e_955e),
        ("Strike high", 0x1b6c_c544),
        ("Hum high", 0xe057_d1fd),
    ];
    assert_eq!(found, expected);
}

#[test]
fn the_bank_by_its_check_sums() {
    let carillon = Carillon::cast();
    assert_eq!((carillon.memory().len(), crc32_of_samples(&carillon.memory())), (258_220, 0x55fc_c3e8));
    assert_eq!((carillon.pdta().len(), crc32(&carillon.pdta())), (1_978, 0x6c69_2870));
    assert_eq!((carillon.file().len(), crc32(&carillon.file())), (518_516, 0x4a16_eee5));
    assert!(admit(&carillon.pdta()).is_ok());
}

#[test]
fn the_piece_by_its_check_sums() {
    let (moments, end) = piece::piece();
    let song = piece::midi_file(&moments, end);
    assert_eq!((song.len(), crc32(&song)), (2_236, 0x8242_97e4));
    for (lines, length, sum) in
        [(piece::lines(&moments), 8_622, 0xba2c_da8c), (piece::lines(&piece::two_octaves()), 95, 0xd22b_e531)]
    {
        assert_eq!((lines.len(), crc32(lines.as_bytes())), (length, sum));
    }
    let strikes = moments.iter().filter(|moment| matches!(moment.action, piece::Action::Strike(..))).count();
    assert_eq!((moments.len(), strikes, end), (493, 262, 94_310));
}

/// The reader of MIDI files finds the events of the lines, each at its frame.
#[test]
fn the_song_is_read_as_the_piece() {
    let (moments, end) = piece::piece();
    let events = midi_file::read(&piece::midi_file(&moments, end)).expect("a song without a fault");
    let letter = |status| match status {
        0x80 => 'o',
        0x90 => 'n',
        _ => 'c',
    };
    let line = |(frame, bytes): &(_, Vec<u8>)| format!("{frame} {} 0 {} {}\n", letter(bytes[0]), bytes[1], bytes[2]);
    let lines: String = events.iter().map(line).collect();
    assert_eq!(lines, piece::lines(&moments));
}

/// The four files, and no other, in a folder that was not there.
#[test]
fn the_files_are_written_into_a_new_folder() {
    let folder = std::env::temp_dir().join(format!("bells-{}", std::process::id()));
    write_files(&folder.join("new")).expect("a folder for passing things can be written");
    let mut found: Vec<(String, u32)> = std::fs::read_dir(folder.join("new"))
        .expect("the folder is there")
        .map(|entry| entry.expect("an entry").path())
        .map(|path| (path.file_name().unwrap().to_str().unwrap().to_string(), crc32(&std::fs::read(&path).unwrap())))
        .collect();
    found.sort();
    std::fs::remove_dir_all(&folder).expect("what was written can be removed");
    let expected = [
        ("ab.events", 0xd22b_e531),
        ("bells.events", 0xba2c_da8c),
        ("bells.mid", 0x8242_97e4),
        ("bells.sf2", 0x4a16_eee5),
    ];
    assert_eq!(found, expected.map(|(name, sum)| (name.to_string(), sum)));
}

/// A folder that cannot be written is named in what is said.
#[test]
fn a_folder_that_is_a_file_is_refused() {
    let place = std::env::temp_dir().join(format!("bells-file-{}", std::process::id()));
    std::fs::write(&place, b"").expect("a file for passing things can be written");
    let error = write_files(&place).expect_err("a file is no folder");
    std::fs::remove_file(&place).expect("what was written can be removed");
    assert!(error.to_string().starts_with(&place.display().to_string()), "{error}");
}
