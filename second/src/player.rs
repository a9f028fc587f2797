//! The player: a song, a bank, an output. It has an engine and plays a song on it, event by event, while it renders.
//!
//! The song's file is lent to each call, as the bank is. The next channel event is read ahead.

use crate::midi_file::{self, Cursor, Fault, Struck};
use crate::slots_keys_clock::{Answer, Channel, Engine, Lent};
use crate::tables_and_steps::Tables;

const ALL_NOTES_OFF: u8 = 123;
const PEDAL: u8 = 64;

#[derive(Clone, Debug, PartialEq, Eq)]
pub struct Player {
    /// All calls of the host but start, stop and render go to it directly, while a song plays too.
    pub engine: Engine,
    song: Option<Song>,
}

/// A song of which an event is left.
#[derive(Clone, Debug, PartialEq, Eq)]
struct Song {
    /// The clock value at which it began.
    began: u32,
    next: Struck,
    /// Behind the next event.
    cursor: Cursor,
}

/// How many events a render applied, and how many of these the engine refused.
#[derive(Clone, Copy, Debug, Default, PartialEq, Eq)]
pub struct Applied {
    pub events: u32,
    pub refused: u32,
}

impl Player {
    pub fn fresh(clock: u32) -> Player {
        Player { engine: Engine::fresh(clock), song: None }
    }

    /// Whether no event is left, or no song was started.
    pub fn over(&self) -> bool {
        self.song.is_none()
    }

    /// The file is tested as a whole, and a refused one changes nothing. What sounds is let go as by a stop, each
    /// channel is as in a fresh engine, and the song begins now.
    pub fn start(&mut self, tables: &Tables, file: &[u8]) -> Result<(), Fault> {
        midi_file::read(file)?;
        let mut cursor = Cursor::at_start(file)?;
        self.stop(tables);
        self.engine.channels.fill(Channel::fresh());
        let next = cursor.next(file);
        self.song = next.map(|next| Song { began: self.engine.clock, next, cursor });
        Ok(())
    }

    /// On every channel the pedal comes up and all keys are let go, whether a song plays or not.
    pub fn stop(&mut self, tables: &Tables) {
        for channel in 0..16 {
            for control in [PEDAL, ALL_NOTES_OFF] {
                self.engine.control(tables, channel, control, 0).expect("a channel and a control that there are");
            }
        }
        self.song = None;
    }

    /// Before each frame the events that are due are applied. The tests are the engine's, before the first of them.
    pub fn render(
        &mut self,
        tables: &Tables,
        lent: &Lent,
        file: &[u8],
        clock: u32,
        output: &mut [f32],
    ) -> Result<Applied, u32> {
        let distance = self.engine.distance(lent, clock, output.len())?;
        let mut applied = Applied::default();
        for frame in output.chunks_exact_mut(2).take(distance) {
            while let Some(event) = self.take_due(file) {
                applied.events += 1;
                applied.refused += u32::from(apply(&mut self.engine, tables, lent, &event).is_err());
            }
            self.engine.frame(tables, lent, frame);
        }
        Ok(applied)
    }

    /// The next event, where it is due, and the one behind it is read from the file as it is lent now. An event that was
    /// missed, because the engine's own render moved the clock past it, is due too.
    fn take_due(&mut self, file: &[u8]) -> Option<Vec<u8>> {
        let song = self.song.as_mut()?;
        let passed = self.engine.clock.wrapping_sub(song.began);
        if song.next.0 > u128::from(passed) {
            return None;
        }
        let (_, event) = match song.cursor.next(file) {
            Some(behind) => std::mem::replace(&mut song.next, behind),
            None => self.song.take()?.next,
        };
        Some(event)
    }
}

/// A channel event as the call that it stands for. Key pressure and channel pressure have none, and are done with that.
fn apply(engine: &mut Engine, tables: &Tables, lent: &Lent, event: &[u8]) -> Answer {
    let channel = event[0] & 0x0f;
    match (event[0] >> 4, &event[1..]) {
        (0x8, [key, _]) => engine.note_off(tables, channel, *key),
        (0x9, [key, velocity]) => engine.note_on(tables, lent, channel, *key, *velocity),
        (0xb, [control, value]) => engine.control(tables, channel, *control, *value),
        (0xc, [program]) => engine.program(channel, *program),
        (0xe, [first, second]) => engine.bend(channel, u16::from(*first) + 128 * u16::from(*second)),
        _ => Ok(0),
    }
}
