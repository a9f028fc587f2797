//! A case as a recording: it is played as case::play does it, and the numbers of its renders become one WAVE file.

use crate::case::{CaseRun, Commands, Stop};
use crate::wave_file;
use std::io::{self, Error, Read};

/// What there is room for in each memory.
pub const MEMORY_ROOM: u32 = 524_288;

/// The file of a case: of each done render its numbers, one behind the other. Of a damaged case there is none, and the
/// error says which command it is and at which byte it begins.
pub fn file(case: impl Read) -> io::Result<Vec<u8>> {
    let mut commands = Commands { input: Counted { input: case, count: 0 } };
    let mut run = CaseRun::new(MEMORY_ROOM);
    let mut numbers = Vec::new();
    loop {
        let begin = commands.input.count;
        let Some(letter) = commands.letter().map_err(|stop| explained(stop, b'?', begin))? else {
            return written(&numbers);
        };
        let sound = match letter {
            b'r' | b'V' => run.rendered(letter, &mut commands),
            _ => run.command(letter, &mut commands).map(|_| Vec::new()),
        };
        numbers.extend(sound.map_err(|stop| explained(stop, letter, begin))?);
    }
}

fn written(numbers: &[f32]) -> io::Result<Vec<u8>> {
    wave_file::write(numbers, usize::MAX).map_err(|number| {
        let frames = numbers.len() / 2;
        Error::other(format!("a file of {frames} frames is refused with {number}"))
    })
}

fn explained(stop: Stop, letter: u8, begin: u64) -> Error {
    match stop {
        Stop::Bad(why) => Error::other(format!("the command '{}' at byte {begin} {why}", letter.escape_ascii())),
        Stop::Failed(error) => error,
    }
}

/// Input of which the bytes are counted.
struct Counted<R> {
    input: R,
    count: u64,
}

impl<R: Read> Read for Counted<R> {
    fn read(&mut self, room: &mut [u8]) -> io::Result<usize> {
        let count = self.input.read(room)?;
        self.count += count as u64;
        Ok(count)
    }
}
