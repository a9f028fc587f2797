//! Reading real files: standard MIDI files and SoundFont files, whole and damaged.

use second::case;
use second::make::player_cases::{ended, in_frames, tower, MEMORY};
use second::make::script::noise;
use second::real;

fn midi_file(division: u16, track: &[u8]) -> Vec<u8> {
    let mut file = b"MThd\0\0\0\x06\0\0\0\x01".to_vec();
    file.extend(division.to_be_bytes());
    file.extend(b"MTrk");
    file.extend((track.len() as u32).to_be_bytes());
    file.extend(track);
    file
}

#[test]
fn a_running_status_and_a_tempo_are_followed() {
    // 100 ticks a beat; key 60 at once, a beat of half a second, then one of a second; key 60 again with velocity 0
    let track = [0, 0x90, 60, 100, 100, 0xFF, 0x51, 3, 0x0F, 0x42, 0x40, 100, 0x90, 62, 90, 0, 60, 0];
    let events = real::midi(&midi_file(100, &track)).unwrap();
    let expected = [(0, vec![0x90, 60, 100]), (66_150, vec![0x90, 62, 90]), (66_150, vec![0x90, 60, 0])];
    assert_eq!(events, expected);
}

#[test]
fn damaged_midi_files_are_refused() {
    assert!(real::midi(b"MThd").is_err());
    assert!(real::midi(&midi_file(0, &[])).is_err());
    assert!(real::midi(&midi_file(0xE728, &[])).is_err());
    assert!(real::midi(&midi_file(100, &[0, 0x90, 60])).is_err());
    assert!(real::midi(&midi_file(100, &[0, 60, 60])).is_err());
}

fn chunk(name: &[u8; 4], body: &[u8]) -> Vec<u8> {
    let mut out = name.to_vec();
    out.extend((body.len() as u32).to_le_bytes());
    out.extend(body);
    out
}

fn sample_header(start: u32, end: u32) -> Vec<u8> {
    let mut header = vec![0; 20];
    for place in [start, end, start + 1, end - 1] {
        header.extend(place.to_le_bytes());
    }
    header.resize(46, 0);
    header
}

#[test]
fn the_shortest_samples_move_to_the_front() {
    let samples: Vec<u8> = (0..100_000i32).flat_map(|k| (k as i16).to_le_bytes()).collect();
    let headers = [sample_header(0, 90_000), sample_header(90_000, 90_010), vec![0; 46]].concat();
    let lists = [
        chunk(b"LIST", &[b"sdta".to_vec(), chunk(b"smpl", &samples)].concat()),
        chunk(b"LIST", &[b"pdta".to_vec(), chunk(b"shdr", &headers)].concat()),
    ];
    let file = chunk(b"RIFF", &[b"sfbk".to_vec(), lists.concat()].concat());
    let bank = real::bank(&file).unwrap();
    assert_eq!(bank.ram, (90_000..90_010).map(|k| k as i16).collect::<Vec<_>>());
    let moved = [sample_header(0, 90_000), sample_header(0, 10), vec![0; 46]].concat();
    assert_eq!(bank.body, chunk(b"shdr", &moved));
}

#[test]
fn damaged_banks_are_refused() {
    assert!(real::bank(b"RIFF").is_err());
    assert!(real::bank(&chunk(b"RIFF", b"sfbk")).is_err());
    let longer = [b"sfbk".to_vec(), b"LIST\xFF\0\0\0pdta".to_vec()].concat();
    assert!(real::bank(&chunk(b"RIFF", &longer)).is_err());
}

/// A SoundFont file of the tower's bank.
fn tower_file() -> Vec<u8> {
    let samples: Vec<u8> = noise(MEMORY, 3).iter().flat_map(|sample| sample.to_le_bytes()).collect();
    let lists = [
        chunk(b"LIST", &[b"sdta".to_vec(), chunk(b"smpl", &samples)].concat()),
        chunk(b"LIST", &[b"pdta".to_vec(), tower().bytes()].concat()),
    ];
    chunk(b"RIFF", &[b"sfbk".to_vec(), lists.concat()].concat())
}

/// The lines of E in the trace of a whole piece, each without its state; and how many events acted.
fn whole_piece(song: &[u8]) -> (Vec<String>, u32) {
    let bank = real::bank(&tower_file()).unwrap();
    let mut trace = Vec::new();
    case::play(real::song_case(&bank, song).unwrap().as_slice(), &mut trace).unwrap();
    let lines = String::from_utf8(trace).unwrap();
    assert!(lines.starts_with("a 0 0 | ") && lines.contains("\nG 0 0 | ") && !lines.contains("bad"));
    let call = |line: &str| line.split(" |").next().unwrap_or_default().to_string();
    let of = |letter: char| lines.lines().filter(move |line| line.starts_with(letter)).map(call);
    let applied = of('V').map(|line| line.split(' ').nth(2).and_then(|word| word.parse::<u32>().ok()).unwrap()).sum();
    (of('E').collect(), applied)
}

#[test]
fn a_whole_piece_is_played_until_it_is_over_and_silent() {
    let bell = in_frames().then(5_000, &[0x90, 60, 100]).then(9_000, &[0x80, 60, 0]);
    let (ends, applied) = whole_piece(&ended(bell));
    assert_eq!((ends, applied), (["E 0 0 0", "E 0 0 1", "E 0 0 1", "E 0 1 0"].map(String::from).to_vec(), 2));
}

/// 20 seconds are 216 renders of 4,096 frames, the last not whole.
#[test]
fn a_piece_whose_keys_stay_held_is_heard_for_20_seconds_more() {
    let (ends, applied) = whole_piece(&ended(in_frames().then(0, &[0x90, 60, 100])));
    assert_eq!((ends.len(), ends.last().map(String::as_str), applied), (1 + 216, Some("E 0 1 1"), 1));
}

#[test]
fn a_piece_of_format_1_is_merged_first() {
    let bell = ended(in_frames().then(5_000, &[0x90, 60, 100]).then(9_000, &[0x80, 60, 0]));
    let mut tracks = bell.clone();
    tracks[9] = 1;
    assert_eq!(whole_piece(&tracks), whole_piece(&bell));
}

#[test]
fn a_piece_that_the_player_does_not_start_has_no_case() {
    let bank = real::bank(&tower_file()).unwrap();
    let complaint = |song: &[u8]| real::song_case(&bank, song).unwrap_err().to_string();
    assert_eq!(complaint(b"MThd\0\0\0\x06\0\x02\0\x01\0\x60"), "M-101 does not admit this file: 10 at byte 8");
    assert_eq!(complaint(b"MThd\0\0\0\x06\0\x01\0\x01\0\x60"), "M-101 does not admit this file: 9 at byte 14");
}
