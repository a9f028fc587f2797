//! Merges in their form on the input: all merge cases one behind the other, and inputs that are themselves damaged, each
//! by itself.

use super::file_streams::Files;
use super::merge_builder::two_notes;
use super::song_builder::Named;
use super::{merge_cases, merge_chance, merge_time_cases, merge_track_cases, merge_written_cases};
use crate::merges::with_room;
use crate::waves::FILE_ROOM;

/// All merge cases, each behind its lengths.
pub fn all() -> Vec<Named> {
    [
        merge_cases::all(),
        merge_track_cases::all(),
        merge_time_cases::all(),
        merge_written_cases::all(),
        merge_chance::all(),
    ]
    .concat()
}

/// The input of all merge cases.
pub fn stream() -> Vec<u8> {
    all().into_iter().flat_map(|(_, file)| file).collect()
}

/// Inputs that end with `bad`, and those that just do not.
pub fn damaged() -> Vec<Named> {
    let files =
        Files { name: "song", between: vec![60, 0, 0, 0], good: two_notes(), refused: vec![0x4d; 9], byte: 0x4d };
    [files.damaged(), rooms()].concat()
}

/// Outputs as long as there is room for, and longer ones, of a file that is merged and of one that is refused, with
/// another file behind.
fn rooms() -> Vec<Named> {
    let list = [
        ("most-room", with_room(&two_notes(), FILE_ROOM)),
        ("most-room-refused", with_room(&[], FILE_ROOM)),
        ("large-room", with_room(&two_notes(), FILE_ROOM + 1)),
        ("large-room-refused", with_room(&[], FILE_ROOM + 1)),
        ("large-room-65536-more", with_room(&two_notes(), FILE_ROOM + 65_536)),
        ("large-room-signed", with_room(&two_notes(), 0x8000_0000)),
        ("large-room-most", with_room(&two_notes(), u32::MAX)),
    ];
    let good = with_room(&two_notes(), 60);
    list.map(|(name, file)| (name.to_string(), [good.as_slice(), &file, &good].concat())).to_vec()
}
