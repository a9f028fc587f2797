//! What songs are asked for, in tests of their reading and of their merging.

use second::midi_file::{read, Fault};

/// The number and place of a refusal.
pub fn fault_of<T>(answer: Result<T, Fault>) -> (u32, usize) {
    let Err(Fault { number, place }) = answer else { panic!("the file is to be refused") };
    (number, place)
}

/// The frames of a file's events.
pub fn frames_of(file: &[u8]) -> Vec<u128> {
    let events = read(file).expect("the file is to be played");
    events.iter().map(|(frame, _)| *frame).collect()
}

/// The microseconds of a tempo change.
pub fn tempo_of(event: &[u8]) -> Option<u128> {
    let micros = |event: &[u8]| u32::from_be_bytes([0, event[3], event[4], event[5]]) as u128;
    (event[..2] == [0xff, 0x51]).then(|| micros(event))
}
