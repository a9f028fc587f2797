//! A carillon of 37 bells and a piece for it, made by whole numbers alone: sines, the castings, the sound of a bell, the
//! bank, the piece. The bytes are settled by check sums, which tests/bells.rs holds them to. The demo of the command is
//! made of the same files, but for this one.

pub mod bank;
mod castings;
pub mod piece;
mod sines;
mod sounds;

use crate::make::script::Script;
use bank::Carillon;
use piece::{Action, Moment};
use std::path::Path;
use std::{fs, io};

/// The case of the piece: the bank and its samples are lent, and each event comes at its frame, up to the piece's end.
pub fn case() -> Vec<u8> {
    let (carillon, (moments, end)) = (Carillon::cast(), piece::piece());
    let mut script = Script::default();
    script.begin("bells: rounds and a plain hunt, a tune, four o'clock", &carillon.pdta(), &carillon.memory(), &[]);
    let mut clock = 0;
    for moment in &moments {
        script.go_far(moment.frame() - clock);
        clock = moment.frame();
        play(&mut script, moment);
    }
    script.go_far(piece::frame_of(end) - clock);
    script.bytes
}

fn play(script: &mut Script, moment: &Moment) {
    match moment.action {
        Action::Strike(key, velocity) => script.on(0, key, velocity),
        Action::Release(key) => script.off(0, key),
        Action::Control(control, value) => script.control(0, control, value),
        Action::Program(program) => script.program(0, program),
    }
}

/// Writes the bank, the piece as a MIDI file and as lines, and the lines of one bell with both octaves.
pub fn write_files(directory: &Path) -> io::Result<()> {
    let (moments, end) = piece::piece();
    let named = |path: &Path, error: io::Error| io::Error::new(error.kind(), format!("{}: {error}", path.display()));
    fs::create_dir_all(directory).map_err(|error| named(directory, error))?;
    let files = [
        ("bells.sf2", Carillon::cast().file()),
        ("bells.mid", piece::midi_file(&moments, end)),
        ("bells.events", piece::lines(&moments).into_bytes()),
        ("ab.events", piece::lines(&piece::two_octaves()).into_bytes()),
    ];
    for (name, bytes) in files {
        let path = directory.join(name);
        fs::write(&path, bytes).map_err(|error| named(&path, error))?;
    }
    Ok(())
}
