//! thularek demo: the built-in bells and their piece.

use crate::bells;
use crate::font::Font;
use crate::output::{say, Place};
use crate::render::{manner, place, report};
use crate::song::Song;
use crate::stop::{grouped, Stop};
use crate::words::{Form, Words};
use std::ffi::OsString;
use std::path::PathBuf;

const FORM: Form =
    Form { command: "demo", options: &["--output", "--bank", "--song", "--tail", "--gain"], flags: &["--force"] };

/// The bank and the song alone, where only these are asked for; else the recording too.
pub fn run(words: &[OsString]) -> Result<(), Stop> {
    let Some(words) = FORM.read(words)? else { return Ok(()) };
    if let Some(file) = words.files.first() {
        return Err(Stop::wrong_use(&format!("demo takes no file ({})", file.display())));
    }
    let manner = manner(&words)?;
    let files = [("--bank", bells::bank_file as fn() -> Vec<u8>), ("--song", bells::song_file)];
    let mut places = Vec::new();
    for (option, make) in files {
        if let Some(path) = words.path(option) {
            places.push((Place::at(&path, words.has("--force"))?, make));
        }
    }
    let recording = recording(&words, places.is_empty()).map(|path| place(&path, words.has("--force"))).transpose()?;
    for (place, make) in places {
        let bytes = make();
        place.write_all(&bytes)?;
        if place.is_file() {
            say(&format!("{}: {} bytes", place.name(), grouped(bytes.len() as u64)))?;
        }
    }
    let Some(place) = recording else { return Ok(()) };
    let font = Font::of("the built-in bank".to_string(), bells::bank_file())?.admitted()?;
    let song = Song::of("the built-in song".to_string(), bells::song_file())?;
    report(&font, &song, manner, &place)
}

fn recording(words: &Words, alone: bool) -> Option<PathBuf> {
    words.path("--output").or_else(|| alone.then(|| PathBuf::from("carillon.wav")))
}
