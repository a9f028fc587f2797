//! The notes of a song that could not be played, counted by channel, preset and reason.

use crate::font::Font;
use crate::song::Event;
use crate::stop::counted;
use crate::thularek::{self, Thularek};
use std::collections::BTreeMap;

/// The library's numbers for a note-on that is refused.
const NO_PRESET: u32 = 3;
const TOO_MANY_LAYERS: u32 = 4;
const PAST_MEMORY: u32 = 8;

/// What a channel plays: its bank and its program.
#[derive(Clone, Copy, PartialEq, Eq, PartialOrd, Ord)]
pub struct Heard {
    pub channel: u8,
    pub bank: u32,
    pub program: u32,
}

impl Heard {
    pub fn on(state: &Thularek, channel: u8) -> Heard {
        Heard { channel, bank: state.channel_bank(channel), program: state.channel_program(channel) }
    }
}

#[derive(Default)]
pub struct Misses {
    counts: BTreeMap<(Heard, u32), u64>,
}

impl Misses {
    /// Strikes a note on a copy of the state, and counts it where no voice starts. (0 stands for a note that is not refused.)
    pub fn note(&mut self, state: &Thularek, font: &Font, event: &Event) {
        let Some((channel, key, velocity)) = event.strike() else { return };
        let mut trial = state.clone();
        let number = trial.note_on(font.bank(), font.ram(), &[], channel, key, velocity);
        if number != 0 || trial.count() == 0 {
            *self.counts.entry((Heard::on(state, channel), number)).or_default() += 1;
        }
    }

    /// A line for each kind.
    pub fn lines(&self) -> Vec<String> {
        self.counts.iter().map(|((heard, number), count)| line(heard, *number, *count)).collect()
    }
}

fn line(heard: &Heard, number: u32, count: u64) -> String {
    let Heard { channel, bank, program } = heard;
    let preset = format!("preset {program} in bank {bank}");
    let why = match number {
        0 => format!("{preset} has nothing at their keys and velocities"),
        NO_PRESET => format!("the bank has no {preset}"),
        TOO_MANY_LAYERS => format!("{preset} has 33 layers or more at their keys"),
        PAST_MEMORY => format!("a sample of {preset} ends past the sample memory"),
        _ => thularek::message(number).to_string(),
    };
    format!("{} of channel {channel}: {why}", counted(count, "note", "notes"))
}

#[cfg(test)]
mod tests {
    use super::*;

    #[test]
    fn words() {
        let drums = Heard { channel: 9, bank: 128, program: 8 };
        assert_eq!(line(&drums, NO_PRESET, 57), "57 notes of channel 9: the bank has no preset 8 in bank 128");
        assert_eq!(
            line(&drums, 0, 1),
            "1 note of channel 9: preset 8 in bank 128 has nothing at their keys and velocities"
        );
    }
}
