//! The second program's commands: play a case, record one, read songs, merge the tracks of a song or of many, damage
//! songs, write and read waves, make waves and songs of several tracks by chance, find the parts of fonts, make the stored
//! cases and their traces, make cases of real files, make the carillon and its piece.

use second::{bells, case, fonts, make, merge_file, merges, real, record, songs, waves};
use std::fs;
use std::io::{self, BufReader, BufWriter, Read, Write};
use std::path::Path;
use std::process::ExitCode;

const USAGE: &str = "usage: second play < CASE > TRACE
       second record < CASE > FILE.wav
       second songs < FILES > LINES
       second merge < FILE.mid > MERGED.mid
       second waves < COMMANDS > LINES
       second fonts < FILES > LINES
       second merges < FILES > LINES
       second damage SEED COUNT [FILE.mid ..] > FILES
       second noise SEED COUNT > COMMANDS
       second tracks SEED COUNT > FILES
       second make DIR
       second real BANK.sf2 PIECE.mid SECONDS > CASE
       second real BANK.sf2 PIECE.mid > CASE
       second struck BANK.sf2 > CASE
       second bells > CASE
       second bells DIR";

/// The status is 0 for a damaged case too, whose trace ends with `bad`; 1 where reading or writing fails, and for a damaged
/// case that has no recording or a song that is not merged; 2 for usage.
fn main() -> ExitCode {
    let arguments: Vec<String> = std::env::args().skip(1).collect();
    let words: Vec<&str> = arguments.iter().map(String::as_str).collect();
    let done = match words.as_slice() {
        ["play"] => case::play(BufReader::new(io::stdin().lock()), BufWriter::new(io::stdout().lock())),
        ["record"] => return recorded(),
        ["merge"] => return status("merge", merged()),
        ["songs"] => songs::play(BufReader::new(io::stdin().lock()), BufWriter::new(io::stdout().lock())),
        ["waves"] => waves::play(BufReader::new(io::stdin().lock()), BufWriter::new(io::stdout().lock())),
        ["fonts"] => fonts::play(BufReader::new(io::stdin().lock()), BufWriter::new(io::stdout().lock())),
        ["merges"] => merges::play(BufReader::new(io::stdin().lock()), BufWriter::new(io::stdout().lock())),
        ["damage", seed, count, files @ ..] => damaged_songs(seed, count, files),
        ["noise", seed, count] => noise(seed, count),
        ["tracks", seed, count] => tracks(seed, count),
        ["make", directory] => make::write_all(Path::new(directory)),
        ["real", bank, piece, seconds] => real_case(bank, piece, seconds),
        ["real", bank, piece] => song_case(bank, piece),
        ["struck", bank] => {
            real_bank(bank).and_then(|bank| real::write_strikes(&bank, &mut BufWriter::new(io::stdout().lock())))
        }
        ["bells"] => put(&bells::case()),
        ["bells", directory] => bells::write_files(Path::new(directory)),
        _ => {
            eprintln!("{USAGE}");
            return ExitCode::from(2);
        }
    };
    status("second", done)
}

fn status(name: &str, done: io::Result<()>) -> ExitCode {
    match done {
        Ok(()) => ExitCode::SUCCESS,
        Err(error) => {
            eprintln!("{name}: {error}");
            ExitCode::FAILURE
        }
    }
}

/// Of a damaged case no file is written; the status is 1.
fn recorded() -> ExitCode {
    let file = record::file(BufReader::new(io::stdin().lock()));
    status("record", file.and_then(|file| put(&file)))
}

/// The room is that of the longest file, so that whatever is written can be merged again.
fn merged() -> io::Result<()> {
    let mut file = Vec::new();
    io::stdin().lock().read_to_end(&mut file)?;
    let merged = merge_file::merge(&file, merge_file::LONGEST_FILE).map_err(|fault| {
        let words = merge_file::words(fault.number);
        io::Error::other(format!("refused with {} at place {}: {words}", fault.number, fault.place))
    });
    put(&merged?)
}

fn put(bytes: &[u8]) -> io::Result<()> {
    let mut output = io::stdout().lock();
    output.write_all(bytes)?;
    output.flush()
}

/// A file's bytes, with its name in what is said where it cannot be read.
fn bytes_of(name: &str) -> io::Result<Vec<u8>> {
    fs::read(name).map_err(|error| io::Error::new(error.kind(), format!("{name}: {error}")))
}

fn number(text: &str, what: &str) -> io::Result<u64> {
    text.parse().map_err(|_| io::Error::other(format!("{text}: not {what}")))
}

fn real_bank(name: &str) -> io::Result<real::RealBank> {
    real::bank(&bytes_of(name)?).map_err(|error| io::Error::other(format!("{name}: {error}")))
}

fn real_case(bank: &str, piece: &str, seconds: &str) -> io::Result<()> {
    let seconds = number(seconds, "a number of seconds")?;
    let events = real::midi(&bytes_of(piece)?).map_err(|error| io::Error::other(format!("{piece}: {error}")))?;
    real::write_case(&real_bank(bank)?, &events, seconds, &mut BufWriter::new(io::stdout().lock()))
}

/// A piece that the player does not start has no case.
fn song_case(bank: &str, piece: &str) -> io::Result<()> {
    let case = real::song_case(&real_bank(bank)?, &bytes_of(piece)?);
    put(&case.map_err(|error| io::Error::other(format!("{piece}: {error}")))?)
}

fn damaged_songs(seed: &str, count: &str, files: &[&str]) -> io::Result<()> {
    let (seed, count) = (number(seed, "a seed")?, number(count, "a number of files")?);
    let files: Vec<Vec<u8>> = files.iter().map(|name| bytes_of(name)).collect::<io::Result<_>>()?;
    make::song_damage::write(seed, count, &files, &mut BufWriter::new(io::stdout().lock()))
}

fn noise(seed: &str, count: &str) -> io::Result<()> {
    let (seed, count) = (number(seed, "a seed")?, number(count, "a number of commands")?);
    make::wave_chance::write(seed, count, &mut BufWriter::new(io::stdout().lock()))
}

fn tracks(seed: &str, count: &str) -> io::Result<()> {
    let (seed, count) = (number(seed, "a seed")?, number(count, "a number of files")?);
    make::merge_chance::write(seed, count, &mut BufWriter::new(io::stdout().lock()))
}
