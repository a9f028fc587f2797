//! thularek render: a song on a bank, recorded.

use crate::font::Font;
use crate::output::{say, Place};
use crate::recording::{record, Manner};
use crate::song::Song;
use crate::stop::Stop;
use crate::words::{Form, Words};
use std::ffi::OsString;
use std::io::{self, IsTerminal};
use std::path::{Path, PathBuf};

const FORM: Form = Form { command: "render", options: &["--output", "--tail", "--gain"], flags: &["--force"] };

pub fn run(words: &[OsString]) -> Result<(), Stop> {
    let Some(words) = FORM.read(words)? else { return Ok(()) };
    match words.files.as_slice() {
        [bank, song] => render(bank, song, &words),
        _ => Err(Stop::wrong_use("render takes a bank and a song")),
    }
}

/// Two files without a command are a bank and a song.
pub fn run_unnamed(words: &[OsString]) -> Result<(), Stop> {
    let Some(read) = FORM.read(words)? else { return Ok(()) };
    match read.files.as_slice() {
        [bank, song] => render(bank, song, &read),
        [] => Err(Stop::wrong_use("there is no command")),
        [first, ..] => Err(Stop::wrong_use(&format!("there is no command '{}'", first.display()))),
    }
}

fn render(bank: &Path, song: &Path, words: &Words) -> Result<(), Stop> {
    let manner = manner(words)?;
    let path = words.path("--output").unwrap_or_else(|| recording_of(song));
    let place = place(&path, words.has("--force"))?;
    let (font, song) = (Font::open(bank)?, Song::open(song)?);
    report(&font, &song, manner, &place)
}

/// The song's name with another ending, in the folder that one is in.
fn recording_of(song: &Path) -> PathBuf {
    PathBuf::from(song.file_name().unwrap_or_default()).with_extension("wav")
}

pub fn manner(words: &Words) -> Result<Manner, Stop> {
    Ok(Manner { tail: words.tail()?, attenuation: words.attenuation()? })
}

/// Where a recording goes; a terminal is no place for one.
pub fn place(path: &Path, force: bool) -> Result<Place, Stop> {
    match Place::at(path, force)? {
        Place::Stream if io::stdout().is_terminal() => Err(Stop::wrong_use("a recording is not written to a terminal")),
        place => Ok(place),
    }
}

/// Records, and says what came of it: beside the recording where that goes to standard output.
pub fn report(font: &Font, song: &Song, manner: Manner, place: &Place) -> Result<(), Stop> {
    let told = record(font, song, manner, place)?;
    let lines = told.lines(&place.name()).join("\n");
    match place {
        Place::Stream => Ok(eprintln!("{lines}")),
        _ => say(&lines),
    }
}
