//! Songs: MIDI files one behind the other, each a length and its bytes, and the lines for each of them.

use crate::case::{run, Commands, Stop, NO_ROOM, SONG_ROOM};
use crate::midi_file;
use std::io::{self, Read, Write};

/// Writes the lines of each file. One that is cut off, or longer than there is room for, ends the run with `bad`.
pub fn play(input: impl Read, output: impl Write) -> io::Result<()> {
    run(input, output, |commands| Ok(next_file(commands)?.map(|file| lines(&file).into_bytes())))
}

/// The next file, nothing at the end of the input.
pub(crate) fn next_file<R: Read>(commands: &mut Commands<R>) -> Result<Option<Vec<u8>>, Stop> {
    next_length(commands)?.map(|length| commands.bytes(length)).transpose()
}

/// The next file's length. Its first byte is where the input may end.
pub(crate) fn next_length<R: Read>(commands: &mut Commands<R>) -> Result<Option<usize>, Stop> {
    let Some(low) = commands.letter()? else { return Ok(None) };
    let length = u32::from_le_bytes([low, commands.byte()?, commands.byte()?, commands.byte()?]);
    if length > SONG_ROOM {
        return Err(NO_ROOM);
    }
    Ok(Some(length as usize))
}

/// The number and place of a refusal; else the channel events, each with its frame, and how many there were.
pub fn lines(file: &[u8]) -> String {
    let struck = match midi_file::read(file) {
        Err(fault) => return format!("{} {}\n", fault.number, fault.place),
        Ok(struck) => struck,
    };
    let mut text = String::new();
    for (frame, bytes) in &struck {
        let bytes: Vec<String> = bytes.iter().map(|byte| format!("{byte:02x}")).collect();
        text += &format!("{frame} {}\n", bytes.join(" "));
    }
    text + &format!("0 {}\n", struck.len())
}

/// A file as it stands in the input, behind its length.
pub fn with_length(file: &[u8]) -> Vec<u8> {
    [&(file.len() as u32).to_le_bytes(), file].concat()
}
