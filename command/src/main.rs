//! thularek: songs on SoundFont banks, recorded as WAVE files, and what is wrong with a bank or a song. It reads files, lends
//! them to libthularek, writes what comes back and talks to people. What a bank, a song or a sound is, the proved code
//! behind library/thularek.h decides.

mod bells;
mod check;
mod demo;
mod font;
mod help;
mod list;
mod misses;
mod output;
mod progress;
mod recording;
mod records;
mod render;
mod song;
mod stop;
mod words;

#[path = "../../library/thularek.rs"]
mod thularek;

use std::ffi::OsString;
use std::process::ExitCode;
use stop::Stop;

fn main() -> ExitCode {
    let words: Vec<OsString> = std::env::args_os().skip(1).collect();
    let stop = match run(&words) {
        Ok(()) => return ExitCode::SUCCESS,
        Err(stop) => stop,
    };
    if let Some(line) = stop.line() {
        eprintln!("thularek: {line}");
    }
    stop.status()
}

/// The first word names what is to be done; a bank and a song without it are rendered.
fn run(words: &[OsString]) -> Result<(), Stop> {
    let Some((first, rest)) = words.split_first() else {
        return Err(Stop::wrong_use("there is nothing to do"));
    };
    match first.to_str() {
        Some("demo") => demo::run(rest),
        Some("render") => render::run(rest),
        Some("check") => check::run(rest),
        Some("list") => list::run(rest),
        Some("help") => help::of(rest),
        Some("--help" | "-h") => help::of(&[]),
        Some("--version" | "-V") => output::say(&format!("thularek {}", env!("CARGO_PKG_VERSION"))),
        _ => render::run_unnamed(words),
    }
}
