//! Fonts: SoundFont files one behind the other, each a length and its bytes, and a line for each of them.

use crate::case::run;
use crate::riff_file;
use crate::songs::next_file;
use std::io::{self, Read, Write};

/// Writes the line of each file. One that is cut off, or longer than there is room for, ends the run with `bad`.
pub fn play(input: impl Read, output: impl Write) -> io::Result<()> {
    run(input, output, |commands| Ok(next_file(commands)?.map(|file| line(&file).into_bytes())))
}

/// 0 and where the bank and the samples begin, each with its size; else the number and place of the refusal.
pub fn line(file: &[u8]) -> String {
    match riff_file::read(file) {
        Err(fault) => format!("{} {}\n", fault.number, fault.place),
        Ok(riff_file::Parts { bank, samples }) => {
            format!("0 {} {} {} {}\n", bank.start, bank.len(), samples.start, samples.len())
        }
    }
}
