//! The built-in bells and their piece, made of whole numbers by rule: the same bytes on every machine. The rules stand in the
//! second program, whose tests hold them to check sums.
#![allow(dead_code)]

#[path = "../../second/src/bells/bank.rs"]
pub mod bank;
#[path = "../../second/src/bells/castings.rs"]
mod castings;
#[path = "../../second/src/bells/piece.rs"]
pub mod piece;
#[path = "../../second/src/bells/sines.rs"]
mod sines;
#[path = "../../second/src/bells/sounds.rs"]
mod sounds;

/// The bank as a SoundFont file.
pub fn bank_file() -> Vec<u8> {
    bank::Carillon::cast().file()
}

/// The piece as a MIDI file.
pub fn song_file() -> Vec<u8> {
    let (moments, end) = piece::piece();
    piece::midi_file(&moments, end)
}
