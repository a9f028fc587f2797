//! Songs in their form on the input: all song cases one behind the other, and inputs that are themselves damaged, each by
//! itself.

use super::file_streams::Files;
use super::song_builder::{song, Named, Piece, NOTE};
use super::{song_cases, song_chance, song_fault_cases, song_time_cases, track_cases};
use crate::songs::with_length;

/// All song cases.
pub fn all() -> Vec<Named> {
    [song_cases::all(), track_cases::all(), song_time_cases::all(), song_fault_cases::all(), song_chance::all()]
        .concat()
}

/// The input of all song cases.
pub fn stream() -> Vec<u8> {
    all().iter().flat_map(|(_, file)| with_length(file)).collect()
}

/// Inputs that end with `bad`, and those that just do not.
pub fn damaged() -> Vec<Named> {
    let good = Piece::default().then(96, &NOTE).song();
    Files { name: "song", between: vec![], good, refused: song(0, &[]), byte: 0x4d }.damaged()
}
