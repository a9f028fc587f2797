//! strike BANK.sf2 KEY OUT.wav: strikes one bell, holds it for a second and lets it ring out, into a WAVE file. The same as
//! strike.c, with std alone.
#[path = "../thularek.rs"]
mod thularek;

use std::process::ExitCode;
use thularek::{font, message, wave_heading, wave_pour, Thularek};

const RATE: u32 = 44_100;
/// Frames that are made at a time, and at most.
const STEP: u32 = 441;
const MOST: u32 = 20 * RATE;

/// A number of the library, in words where it is no 0.
fn must(number: u32, what: &str) -> Result<(), String> {
    match number {
        0 => Ok(()),
        _ => Err(format!("{what}: {}", message(number))),
    }
}

fn strike(bank_name: &str, key: u8, wave_name: &str) -> Result<(), String> {
    let file = std::fs::read(bank_name).map_err(|error| format!("{bank_name}: {error}"))?;
    let (bank, samples) = font(&file).map_err(|(number, _)| format!("{bank_name}: {}", message(number)))?;
    let (bank, samples) = (&file[bank], &file[samples]);
    let ram: Vec<i16> = samples.chunks_exact(2).map(|pair| i16::from_le_bytes([pair[0], pair[1]])).collect();
    let mut state = Thularek::new();
    must(state.note_on(bank, &ram, &[], 0, key, 100), "note-on")?;
    let (mut out, mut wave) = ([0.0; 2 * STEP as usize], vec![0; 44]);
    while !state.is_silent() && state.clock() < MOST {
        if state.clock() == RATE {
            state.note_off(0, key);
        }
        must(state.render(&ram, &[], &mut out, state.clock() + STEP), "render")?;
        let end = wave.len();
        wave.resize(end + 4 * STEP as usize, 0);
        must(wave_pour(&out, &mut wave[end..]), "pour")?;
    }
    must(wave_heading(u64::from(state.clock()), &mut wave), "heading")?;
    std::fs::write(wave_name, &wave).map_err(|error| format!("{wave_name}: {error}"))?;
    println!("{wave_name}: {} frames", state.clock());
    Ok(())
}

fn main() -> ExitCode {
    let words: Vec<String> = std::env::args().skip(1).collect();
    let done = match words.as_slice() {
        [bank, key, wave] => match key.parse() {
            Ok(key) => strike(bank, key, wave),
            Err(_) => Err(format!("{key} is no key")),
        },
        _ => Err("usage: strike BANK.sf2 KEY OUT.wav".to_string()),
    };
    match done {
        Ok(()) => ExitCode::SUCCESS,
        Err(why) => {
            eprintln!("strike: {why}");
            ExitCode::FAILURE
        }
    }
}
