//! thularek check: whether banks and songs can be played, and why not.

use crate::font::Font;
use crate::misses::{Heard, Misses};
use crate::output::{self, name_of, say};
use crate::song::Song;
use crate::stop::{counted, seconds, Stop};
use crate::words::Form;
use std::collections::BTreeMap;
use std::ffi::OsString;
use std::path::Path;

const FORM: Form = Form { command: "check", options: &["--with"], flags: &[] };

/// Each file gets its verdict; the status tells whether all were good.
pub fn run(words: &[OsString]) -> Result<(), Stop> {
    let Some(words) = FORM.read(words)? else { return Ok(()) };
    if words.files.is_empty() {
        return Err(Stop::wrong_use("check takes banks and songs"));
    }
    let with = words.path("--with").map(|path| Font::open(&path)).transpose()?;
    let mut all_good = true;
    for path in &words.files {
        match check(path, with.as_ref()) {
            Err(Stop::Refused(line)) => eprintln!("thularek: {line}"),
            Err(Stop::Said) => {}
            other => {
                other?;
                continue;
            }
        }
        all_good = false;
    }
    if all_good {
        Ok(())
    } else {
        Err(Stop::Said)
    }
}

/// A bank or a song, by its first bytes; where they tell nothing, by its name.
fn check(path: &Path, with: Option<&Font>) -> Result<(), Stop> {
    let name = name_of(path);
    let front = output::read(path, 3, |_| Ok(()))?;
    let ending = path.extension().map(|ending| ending.to_ascii_lowercase()).unwrap_or_default();
    match front.as_slice() {
        b"RIFF" => check_bank(path),
        b"MThd" => check_song(path, with),
        _ if ending == "sf2" => check_bank(path),
        _ if ending == "mid" || ending == "midi" => check_song(path, with),
        _ => Err(Stop::of(&name, "this is neither a SoundFont file nor a MIDI file")),
    }
}

fn check_bank(path: &Path) -> Result<(), Stop> {
    let font = Font::open(path)?;
    font.samples_there()?;
    let presets = counted(font.presets().count() as u64, "preset", "presets");
    let samples = counted(font.ram().len() as u64, "sample", "samples");
    let bytes = counted(font.bank().len() as u64, "byte", "bytes");
    say(&format!("{}: admitted: {presets}, {samples}, a bank of {bytes}", font.name))
}

/// What is heard of a song.
#[derive(Default)]
struct Sheet {
    events: u64,
    last: u32,
    /// The notes of each channel and preset.
    notes: BTreeMap<Heard, u64>,
    misses: Misses,
}

fn check_song(path: &Path, with: Option<&Font>) -> Result<(), Stop> {
    let song = Song::open(path)?;
    let sheet = sheet_of(&song, with);
    let notes = counted(sheet.notes.values().sum(), "note", "notes");
    let events = counted(sheet.events, "event", "events");
    let name = &song.name;
    say(&format!("{name}: admitted: {}, {events}, {notes}", seconds(u64::from(sheet.last))))?;
    for (Heard { channel, bank, program }, count) in &sheet.notes {
        let count = counted(*count, "note", "notes");
        say(&format!("{name}: channel {channel} plays preset {program} in bank {bank}: {count}"))?;
    }
    let misses = sheet.misses.lines();
    for line in &misses {
        eprintln!("thularek: {name}: {line}");
    }
    if misses.is_empty() {
        Ok(())
    } else {
        Err(Stop::Said)
    }
}

/// The engine itself follows the song's programs; with a bank it tells also which notes it would not play.
fn sheet_of(song: &Song, with: Option<&Font>) -> Sheet {
    let (mut sheet, mut events) = (Sheet::default(), song.events());
    while let Some(event) = events.next() {
        (sheet.events, sheet.last) = (sheet.events + 1, event.frame);
        if let Some((channel, ..)) = event.strike() {
            *sheet.notes.entry(Heard::on(&events.state, channel)).or_default() += 1;
        }
        match with {
            Some(font) => {
                sheet.misses.note(&events.state, font, &event);
                events.step(font.bank(), font.ram());
            }
            None => events.step(&[], &[]),
        }
    }
    sheet
}
