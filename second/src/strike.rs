//! What a struck key starts: its layers, and the numbers of the voice that each layer starts, as lines of text.

use crate::bank::Bank;
use crate::bank_admission::Fault;
use crate::key_to_layers::{find_preset, layers, Numbers};
use crate::tables_and_steps::tables;

/// `h` and the number of layers, 33 for too many, `none` where there is no such preset; then a line for each layer of up
/// to 32.
pub fn lines(bank: &Result<Bank, Fault>, program: u8, number: u8, key: u8, velocity: u8) -> String {
    let preset = bank.as_ref().ok().and_then(|bank| {
        let preset = find_preset(bank, number as u16, program as u16)?;
        Some((bank, preset))
    });
    let Some((bank, preset)) = preset else {
        return "h none\n".to_string();
    };
    let found = layers(bank, preset, key, velocity);
    let mut text = format!("h {}\n", found.len());
    if found.len() <= 32 {
        let numbers = found.iter().map(|l| l.numbers(tables(), key, velocity));
        text.extend(numbers.map(|n| voice_line(&n)));
    }
    text
}

/// `v delay attack hold decay release sustain pan class attenuation pitch rate mode rom start end loopstart loopend`:
/// times in frames, the class signed, the loop's places from the window's start and 0 where it does not loop.
fn voice_line(n: &Numbers) -> String {
    let w = &n.window;
    let (loop_start, loop_end) = match w.mode {
        0 => (0, 0),
        _ => (w.loop_start - w.start, w.loop_end - w.start),
    };
    let times = [n.delay, n.attack, n.hold, n.decay, n.release].map(|t| t as i64);
    let others = [
        n.sustain,
        n.pan,
        n.class,
        n.attenuation,
        n.pitch,
        n.rate as i64,
        w.mode,
        i64::from(w.rom),
        w.start,
        w.end,
        loop_start,
        loop_end,
    ];
    let mut line = "v".to_string();
    for number in times.iter().chain(&others) {
        line += &format!(" {number}");
    }
    line + "\n"
}
