//! What the command says of itself. The manual page, thularek.1, has more.

use crate::output::say;
use crate::stop::Stop;
use std::ffi::OsString;

const ALL: &str = "\
thularek: a carillon on the command line

  thularek demo [-o carillon.wav]               plays the built-in bells into a WAVE file
  thularek render BANK.sf2 SONG.mid [-o OUT.wav]  plays a song on a bank into a WAVE file
  thularek BANK.sf2 SONG.mid [-o OUT.wav]       the same
  thularek check FILE.. [--with BANK.sf2]       says whether banks and songs can be played, or why not
  thularek list BANK.sf2 [--json]               lists the presets of a bank

  thularek COMMAND --help                       says more about one of them
  thularek --version

The status is 0 where all went well, 1 where a file is refused or cannot be read or written, and 2
where the words on the command line are wrong.";

const DEMO: &str = "\
thularek demo [-o FILE.wav] [--bank FILE.sf2] [--song FILE.mid] [--gain DB] [--tail SECONDS] [--force]

Plays the built-in piece on the built-in bells: a ring of eight, a tune, four o'clock on the biggest
bell. Bells and piece are made by the program itself; no file is needed.

  -o, --output FILE   the recording, carillon.wav unless it is named; - is standard output
      --bank FILE     writes the bells as a SoundFont file
      --song FILE     writes the piece as a MIDI file
      --gain DB       lowers the recording: 0 or below, in dB with one digit behind the point
      --tail SECONDS  how long the bells may ring behind the piece's end: 30 unless it is said
  -f, --force         writes over files that are there

With --bank or --song and without -o there is no recording.";

const RENDER: &str = "\
thularek render BANK.sf2 SONG.mid [-o OUT.wav] [--gain DB] [--tail SECONDS] [--force]

Plays a MIDI file of format 0 or 1 on a SoundFont bank into a WAVE file of 16 bits, two channels and
44,100 frames a second. The recording ends where the song is over and no voice sounds.

  -o, --output FILE   the recording: the song's name with .wav unless it is named; - is standard output
      --gain DB       lowers every number of the sum by one factor, before it is held at full scale:
                      0 or below, in dB with one digit behind the point
      --tail SECONDS  how long voices may sound behind the song's end: 30 unless it is said, at most 3600
  -f, --force         writes over a file that is there

At the end it says how long the recording is and its peak; in how many frames the sum was held at full
scale, and which gain would have kept it below; and which notes could not be played, and why.";

const CHECK: &str = "\
thularek check FILE.. [--with BANK.sf2]

Says of each bank whether the engine admits it, and of each song whether it can be played, how long it
is, its events and notes, and which channels play which presets. Where a file is refused it says why,
at which byte of the file, and in which record; records are counted from 0, as the file counts them.

      --with BANK.sf2  says also which notes of the songs this bank does not play";

const LIST: &str = "\
thularek list BANK.sf2 [--json]

Lists the presets of a bank in the file's order: bank, program, name, how many zones it has, and from
which key to which it has layers.

      --json  as one JSON array of objects: bank, program, name, zones, keys (two numbers, or null)";

/// The help of a command, or of all.
pub fn of(words: &[OsString]) -> Result<(), Stop> {
    match words {
        [] => say(ALL),
        [command] => say_of(&command.to_string_lossy()),
        _ => Err(Stop::wrong_use("help takes one command")),
    }
}

fn say_of(command: &str) -> Result<(), Stop> {
    match text(command) {
        Some(text) => say(text),
        None => Err(Stop::wrong_use(&format!("there is no command '{command}'"))),
    }
}

/// The help of a command that there is.
pub fn say_known(command: &'static str) -> Result<(), Stop> {
    say(text(command).unwrap_or(ALL))
}

fn text(command: &str) -> Option<&'static str> {
    match command {
        "demo" => Some(DEMO),
        "render" => Some(RENDER),
        "check" => Some(CHECK),
        "list" => Some(LIST),
        _ => None,
    }
}
