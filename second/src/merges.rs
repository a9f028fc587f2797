//! Merges: MIDI files one behind the other, each a length, the length of an output and its bytes, and a line for each of
//! them.

use crate::case::{hash, run, Commands, Stop};
use crate::merge_file;
use crate::songs::next_length;
use crate::waves::{laid_over, BYTE_BEFORE, FILE_ROOM};
use std::io::{self, Read, Write};

/// Writes the line of each file. One that is cut off, or longer than there is room for, or that has such an output, ends
/// the run with `bad`.
pub fn play(input: impl Read, output: impl Write) -> io::Result<()> {
    run(input, output, |commands| Ok(next_file(commands)?.map(|(file, room)| line(&file, room).into_bytes())))
}

/// The next file and its output's length, nothing at the end of the input.
fn next_file<R: Read>(commands: &mut Commands<R>) -> Result<Option<(Vec<u8>, usize)>, Stop> {
    let Some(length) = next_length(commands)? else { return Ok(None) };
    let room = commands.length(FILE_ROOM)?;
    Ok(Some((commands.bytes(length)?, room)))
}

/// The number, the place of a fault, the merged song's size, and the hash of the whole output after. Of a number other
/// than 0 the size is 0, and of 0 the place.
pub fn line(file: &[u8], room: usize) -> String {
    let (number, place, song) = match merge_file::merge(file, room) {
        Err(fault) => (fault.number, fault.place, Vec::new()),
        Ok(song) => (0, 0, song),
    };
    let size = song.len();
    format!("{number} {place} {size} {:016x}\n", hash(laid_over(song, BYTE_BEFORE, room)))
}

/// A file as it stands in the input, behind its length and its output's.
pub fn with_room(file: &[u8], room: u32) -> Vec<u8> {
    [&(file.len() as u32).to_le_bytes(), &room.to_le_bytes(), file].concat()
}
