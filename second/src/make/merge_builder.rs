//! Writes files of several tracks, and what is lent for the song that they are merged to.

use super::song_builder::*;
use crate::merges::with_room;

/// The ticks of an hour at the tempo of the start, where a beat has 96.
pub const HOUR: u32 = 7_200 * 96;

/// A piece of one event.
pub fn then(delta: u32, event: &[u8]) -> Piece {
    Piece::default().then(delta, event)
}

/// The chunks of tracks.
pub fn chunks(bodies: &[&[u8]]) -> Vec<u8> {
    bodies.iter().flat_map(|body| chunk(b"MTrk", body)).collect()
}

/// A file of format 1 and 96 ticks a beat with these tracks, of which all is right but perhaps the tracks' bytes.
pub fn tracks(bodies: &[&[u8]]) -> Vec<u8> {
    [head(1, bodies.len() as u16, 96), chunks(bodies)].concat()
}

/// The same of tracks that were made one by one.
pub fn tracks_of(bodies: &[Vec<u8>]) -> Vec<u8> {
    tracks(&bodies.iter().map(Vec::as_slice).collect::<Vec<_>>())
}

/// The same of tracks that are at once ended behind their events.
pub fn ended(pieces: &[Piece]) -> Vec<u8> {
    tracks_of(&pieces.iter().map(|piece| piece.clone().then(0, &END).bytes).collect::<Vec<_>>())
}

/// Two tracks: a note after a beat, and one after two.
pub fn two_notes() -> Vec<u8> {
    ended(&[then(96, &NOTE), then(192, &NOTE)])
}

/// A file with more room than its merged song needs, unless tracks alternate or gaps are bridged very often.
pub fn roomy(name: impl ToString, file: Vec<u8>) -> Named {
    let room = file.len() as u32 + 40;
    (name.to_string(), with_room(&file, room))
}
