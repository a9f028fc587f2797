//! A song as it is lent to the player: one track. Songs of several tracks are merged into one by the library.

use crate::output::{self, name_of};
use crate::stop::{grouped, Stop};
use crate::thularek::{self, Thularek};
use std::path::Path;

/// The longest file that the library merges, and the longest that it plays.
const LONGEST: u64 = 16_777_216;
const PLAYED: usize = 65_536;

const MALFORMED: u32 = 9;
const NO_ROOM: u32 = 43;

pub struct Song {
    pub name: String,
    pub bytes: Vec<u8>,
}

impl Song {
    pub fn open(path: &Path) -> Result<Song, Stop> {
        let name = name_of(path);
        let file = output::read(path, LONGEST, |_| Ok(()))?;
        if file.len() as u64 > LONGEST {
            return Err(Stop::of(&name, &format!("longer than {} bytes", grouped(LONGEST))));
        }
        Song::of(name, file)
    }

    /// What the player does not take as it is may be taken once its tracks are one; what merging does not mend it refuses with
    /// the same number.
    pub fn of(name: String, file: Vec<u8>) -> Result<Song, Stop> {
        if thularek::song_test(&file).0 == 0 {
            return Ok(Song { name, bytes: file });
        }
        let mut merged = vec![0; PLAYED];
        match thularek::merge(&file, &mut merged) {
            (0, size, _) => {
                merged.truncate(size);
                Ok(Song { name, bytes: merged })
            }
            (number, _, place) => Err(fault(&name, &file, number, place)),
        }
    }

    /// Its events, which act on a state of their own, with no time between them.
    pub fn events(&self) -> Events<'_> {
        let mut state = Thularek::new();
        state.song_start(&self.bytes);
        Events { song: &self.bytes, state }
    }

    /// The frame of its last event.
    pub fn length(&self) -> u32 {
        let mut events = self.events();
        let mut last = 0;
        while let Some(event) = events.next() {
            last = event.frame;
            events.step(&[], &[]);
        }
        last
    }
}

/// What is wrong with a song, and where.
fn fault(name: &str, file: &[u8], number: u32, place: u32) -> Stop {
    let words = match number {
        MALFORMED if file.len() > PLAYED && place as usize == PLAYED => {
            format!("longer than {} bytes", grouped(PLAYED as u64))
        }
        MALFORMED => "the song is not well formed".to_string(),
        NO_ROOM => format!("longer than {} bytes even as one track without its texts", grouped(PLAYED as u64)),
        _ => thularek::message(number).to_string(),
    };
    let part = match number {
        NO_ROOM => String::new(),
        _ => format!(", byte {}{}", grouped(u64::from(place)), part_of(file, place as usize)),
    };
    Stop::of(name, &format!("{words}{part}"))
}

/// Which track a byte is in, counted from 0.
fn part_of(file: &[u8], place: usize) -> String {
    let size =
        |at: usize| file.get(at + 4..at + 8).map(|four| u32::from_be_bytes([four[0], four[1], four[2], four[3]]));
    let Some(head) = size(0).filter(|_| file.starts_with(b"MThd")) else { return String::new() };
    let (mut at, mut track) = (8 + head as usize, 0);
    if place < at {
        return " (the heading)".to_string();
    }
    while let Some(length) = size(at) {
        let end = at + 8 + length as usize;
        if place <= end {
            return format!(" (track {track})");
        }
        (at, track) = (end, track + 1);
    }
    String::new()
}

/// An event that comes next: its frame from the song's start, and its bytes.
#[derive(Clone, Copy)]
pub struct Event {
    pub frame: u32,
    pub status: u8,
    pub first: u8,
    pub second: u8,
}

impl Event {
    /// The event that comes next in a song that was started.
    pub fn next_of(state: &Thularek) -> Event {
        let [status, first, second, _] = state.song_next().to_le_bytes();
        Event { frame: state.song_frame(), status, first, second }
    }

    /// Channel, key and velocity of a note-on that is no note-off in disguise.
    pub fn strike(&self) -> Option<(u8, u8, u8)> {
        (self.status >> 4 == 9 && self.second > 0).then_some((self.status & 15, self.first, self.second))
    }
}

/// The events of a song, one after the other.
pub struct Events<'a> {
    song: &'a [u8],
    pub state: Thularek,
}

impl Events<'_> {
    /// The event that comes next, unless the song is over.
    pub fn next(&self) -> Option<Event> {
        (!self.state.song_is_over()).then(|| Event::next_of(&self.state))
    }

    /// Has it act, with a bank.
    pub fn step(&mut self, bank: &[u8], ram: &[i16]) {
        self.state.song_step(self.song, bank, ram, &[]);
    }
}

#[cfg(test)]
mod tests {
    use super::part_of;

    #[test]
    fn tracks_of_bytes() {
        let mut file = b"MThd\0\0\0\x06\0\x01\0\x02\0\x60".to_vec();
        file.extend(b"MTrk\0\0\0\x04\0\xff\x2f\0");
        file.extend(b"MTrk\0\0\0\x04\0\xff\x2f\0");
        assert_eq!(part_of(&file, 8), " (the heading)");
        assert_eq!(part_of(&file, 14), " (track 0)");
        assert_eq!(part_of(&file, 22), " (track 0)");
        assert_eq!(part_of(&file, 35), " (track 1)");
        assert_eq!(part_of(&file, 99), "");
        assert_eq!(part_of(b"MTh", 2), "");
        assert_eq!(part_of(b"", 0), "");
    }
}
