//! Waves: commands that write a WAVE file or read one, and the line for each.

use crate::case::{hash, run, Commands, Stop, UNKNOWN};
use crate::wave_file;
use std::io::{self, Read, Write};

/// What there is room for: numbers that are written or read, bytes of a file.
pub const NUMBER_ROOM: u32 = 8_448;
pub const FILE_ROOM: u32 = 66_000;

/// What each byte of a writer's output, and each number of a reader's, holds before.
pub(crate) const BYTE_BEFORE: u8 = 0xa5;
const NUMBER_BEFORE: i16 = 0x1234;

/// Writes a line for each command. One that is cut off, is unknown or names more than there is room for ends the run
/// with `bad`.
pub fn play(input: impl Read, output: impl Write) -> io::Result<()> {
    run(input, output, |commands| match commands.letter()? {
        None => Ok(None),
        Some(b'W') => write_line(commands).map(Some),
        Some(b'R') => read_line(commands).map(Some),
        Some(_) => Err(UNKNOWN),
    })
}

/// The writer's number, and the hash of its whole output after.
fn write_line<R: Read>(commands: &mut Commands<R>) -> Result<Vec<u8>, Stop> {
    let count = commands.length(NUMBER_ROOM)?;
    let numbers = (0..count).map(|_| commands.u32().map(f32::from_bits)).collect::<Result<Vec<f32>, Stop>>()?;
    let room = commands.length(FILE_ROOM)?;
    let answer = wave_file::write(&numbers, room);
    let number = answer.as_ref().err().copied().unwrap_or(0);
    let output = laid_over(answer.unwrap_or_default(), BYTE_BEFORE, room);
    Ok(format!("W {number} {:016x}\n", hash(output)).into_bytes())
}

/// The reader's number, the frames, and the hash of its whole output after.
fn read_line<R: Read>(commands: &mut Commands<R>) -> Result<Vec<u8>, Stop> {
    let length = commands.length(FILE_ROOM)?;
    let file = commands.bytes(length)?;
    let room = commands.length(NUMBER_ROOM)?;
    let answer = wave_file::read(&file, room);
    let number = answer.as_ref().err().copied().unwrap_or(0);
    let heard = answer.unwrap_or_default();
    let frames = heard.len() / 2;
    let output = laid_over(heard, NUMBER_BEFORE, room).flat_map(i16::to_le_bytes);
    Ok(format!("R {number} {frames} {:016x}\n", hash(output)).into_bytes())
}

/// An output of a length after what is put into its front; the rest stays as it was before.
pub(crate) fn laid_over<T: Copy>(front: Vec<T>, before: T, length: usize) -> impl Iterator<Item = T> {
    front.into_iter().chain(std::iter::repeat(before)).take(length)
}
