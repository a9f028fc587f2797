//! Change request M-101, Standard MIDI Files: a file of format 0 with one track gives its channel events, each with its
//! frame, or the number and place of its first fault.
//!
//! The file is first taken apart as far as it is well formed: its head, its chunks, the track's events as a list. Then
//! the listed events are timed. All of them lie in front of what is not well formed, so that a fault of time is the
//! first; and an event that is not well formed is not in the list, so that 9 goes before 11 at one place.
//!
//! A cursor goes through the same events one at a time, and needs no whole file for it.

use std::ops::Range;

/// The numbers of a refusal.
pub const NOT_WELL_FORMED: u32 = 9;
pub const OTHER_FORMAT: u32 = 10;
pub const TOO_LATE: u32 = 11;

pub const LONGEST_FILE: usize = 65_536;

const FRAMES_A_SECOND: u128 = 44_100;
const MICROS_A_SECOND: u128 = 1_000_000;
pub(crate) const TEMPO_AT_START: u128 = 500_000;

/// An hour in microseconds: U may be so many times the division.
const LATEST_MICROS: u128 = 3_600_000_000;

/// Why a file is refused, and the byte place where the field or event at fault begins.
#[derive(Clone, Copy, Debug, PartialEq, Eq)]
pub struct Fault {
    pub number: u32,
    pub place: usize,
}

pub(crate) fn not_well_formed(place: usize) -> Fault {
    Fault { number: NOT_WELL_FORMED, place }
}

/// A channel event: its frame, and its bytes with the status written out.
pub type Struck = (u128, Vec<u8>);

/// What an event is to a reader. Other meta events and system exclusive events are stepped over.
#[derive(Clone, Debug, PartialEq, Eq)]
pub enum Event {
    Channel(Vec<u8>),
    Tempo(u128),
    EndOfTrack,
    SteppedOver,
}

/// An event with its place, which is behind its delta time.
pub(crate) struct Placed {
    pub(crate) delta: u128,
    pub(crate) place: usize,
    pub(crate) event: Event,
}

/// The channel events of a file in their order, or its first fault.
pub fn read(file: &[u8]) -> Result<Vec<Struck>, Fault> {
    if file.len() > LONGEST_FILE {
        return Err(not_well_formed(LONGEST_FILE));
    }
    let (division, behind) = head(file)?;
    let body = first_track(file, behind)?;
    let (events, fault) = Track { bytes: &file[..body.end], at: body.start, running: None }.events();
    let struck = timed(division, events)?;
    fault.map_or(Ok(struck), Err)
}

pub(crate) fn u16_at(file: &[u8], at: usize) -> u16 {
    u16::from_be_bytes([file[at], file[at + 1]])
}

/// The name of the chunk that begins here, and where its body lies.
pub(crate) fn chunk(file: &[u8], at: usize) -> Result<(&[u8], Range<usize>), Fault> {
    let name = file.get(at..at + 4).ok_or(not_well_formed(at))?;
    let length = file.get(at + 4..at + 8).ok_or(not_well_formed(at + 4))?;
    let length = length.iter().fold(0u64, |n, byte| n << 8 | *byte as u64);
    let body = at + 8;
    if length > (file.len() - body) as u64 {
        return Err(not_well_formed(at + 4));
    }
    Ok((name, body..body + length as usize))
}

/// The division, and the place behind the head.
fn head(file: &[u8]) -> Result<(u128, usize), Fault> {
    if !file.starts_with(b"MThd") {
        return Err(not_well_formed(0));
    }
    let (_, body) = chunk(file, 0)?;
    if body.len() < 6 {
        return Err(not_well_formed(4));
    }
    if u16_at(file, 8) != 0 {
        return Err(Fault { number: OTHER_FORMAT, place: 8 });
    }
    if u16_at(file, 10) != 1 {
        return Err(not_well_formed(10));
    }
    match u16_at(file, 12) {
        0 => Err(not_well_formed(12)),
        division @ 1..=0x7fff => Ok((division as u128, body.end)),
        _ => Err(Fault { number: OTHER_FORMAT, place: 12 }),
    }
}

/// Where the bytes of the first track from here on lie; chunks of other names in front of it are stepped over.
pub(crate) fn first_track(file: &[u8], mut at: usize) -> Result<Range<usize>, Fault> {
    loop {
        let (name, body) = chunk(file, at)?;
        if name == b"MTrk" {
            return Ok(body);
        }
        at = body.end;
    }
}

/// The bytes of the file up to the track's end, and how far they are read. What is cut off or otherwise not well formed
/// is nothing, and the caller knows the place.
pub(crate) struct Track<'a> {
    pub(crate) bytes: &'a [u8],
    pub(crate) at: usize,
    pub(crate) running: Option<u8>,
}

impl Track<'_> {
    /// The events up to the end of track, or those in front of the first that is not well formed, and that fault.
    pub(crate) fn events(mut self) -> (Vec<Placed>, Option<Fault>) {
        let mut list = Vec::new();
        loop {
            let begin = self.at;
            let Some(delta) = self.quantity() else { return (list, Some(not_well_formed(begin))) };
            let place = self.at;
            let Some(event) = self.event() else { return (list, Some(not_well_formed(place))) };
            let last = event == Event::EndOfTrack;
            list.push(Placed { delta, place, event });
            if last {
                return (list, None);
            }
        }
    }

    fn byte(&mut self) -> Option<u8> {
        let byte = *self.bytes.get(self.at)?;
        self.at += 1;
        Some(byte)
    }

    /// A variable-length quantity, which is of one to four bytes: seven bits of each, the highest first.
    fn quantity(&mut self) -> Option<u128> {
        let mut value = 0;
        for _ in 0..4 {
            let byte = self.byte()?;
            value = value << 7 | (byte & 0x7f) as u128;
            if byte < 0x80 {
                return Some(value);
            }
        }
        None
    }

    /// A length, and so many bytes whatever they are.
    fn counted(&mut self) -> Option<Vec<u8>> {
        let length = self.quantity()?;
        (0..length).map(|_| self.byte()).collect()
    }

    fn event(&mut self) -> Option<Event> {
        match *self.bytes.get(self.at)? {
            0x00..=0x7f => self.channel(self.running?),
            status @ 0x80..=0xef => {
                self.at += 1;
                self.channel(status)
            }
            0xf0 | 0xf7 => {
                self.at += 1;
                self.running = None;
                self.counted().map(|_| Event::SteppedOver)
            }
            0xff => {
                self.at += 1;
                self.running = None;
                self.meta()
            }
            0xf1..=0xf6 | 0xf8..=0xfe => None,
        }
    }

    /// The data of a channel event: one byte for program change and channel pressure, two for all others.
    fn channel(&mut self, status: u8) -> Option<Event> {
        self.running = Some(status);
        let count = if matches!(status, 0xc0..=0xdf) { 1 } else { 2 };
        let mut bytes = vec![status];
        for _ in 0..count {
            bytes.push(self.byte().filter(|data| *data < 0x80)?);
        }
        Some(Event::Channel(bytes))
    }

    /// A meta event's type, length and bytes. A tempo is the first three of them.
    fn meta(&mut self) -> Option<Event> {
        let kind = self.byte().filter(|kind| *kind < 0x80)?;
        let said = self.counted()?;
        match (kind, said.as_slice()) {
            (0x2f, _) => Some(Event::EndOfTrack),
            (0x51, [a, b, c, ..]) => Some(Event::Tempo((*a as u128) << 16 | (*b as u128) << 8 | *c as u128)),
            (0x51, _) => None,
            _ => Some(Event::SteppedOver),
        }
    }
}

/// The time in a track: U sums the ticks of every event times the tempo then in force.
#[derive(Clone, Debug, PartialEq, Eq)]
pub(crate) struct Time {
    division: u128,
    pub(crate) tempo: u128,
    u: u128,
}

impl Time {
    pub(crate) fn at_start(division: u128) -> Time {
        Time { division, tempo: TEMPO_AT_START, u: 0 }
    }

    /// So many ticks on, nothing where U is then above its limit.
    pub(crate) fn pass(&mut self, ticks: u128) -> Option<()> {
        self.u += ticks * self.tempo;
        (self.u <= LATEST_MICROS * self.division).then_some(())
    }

    pub(crate) fn frame(&self) -> u128 {
        self.u * FRAMES_A_SECOND / (self.division * MICROS_A_SECOND)
    }
}

/// The channel events with their frames.
fn timed(division: u128, events: Vec<Placed>) -> Result<Vec<Struck>, Fault> {
    let (mut time, mut struck) = (Time::at_start(division), Vec::new());
    for Placed { delta, place, event } in events {
        time.pass(delta).ok_or(Fault { number: TOO_LATE, place })?;
        match event {
            Event::Channel(bytes) => struck.push((time.frame(), bytes)),
            Event::Tempo(new) => time.tempo = new,
            Event::EndOfTrack | Event::SteppedOver => {}
        }
    }
    Ok(struck)
}

/// Where a reader stands that takes one channel event at a time. It keeps no byte of the file: each reading goes on in
/// whatever file is lent to it, and there the track ends with the file at the latest.
#[derive(Clone, Debug, PartialEq, Eq)]
pub struct Cursor {
    place: usize,
    track_end: usize,
    running: Option<u8>,
    time: Time,
}

impl Cursor {
    /// In front of the first event of a file's track.
    pub fn at_start(file: &[u8]) -> Result<Cursor, Fault> {
        let (division, behind) = head(file)?;
        let body = first_track(file, behind)?;
        Ok(Cursor { place: body.start, track_end: body.end, running: None, time: Time::at_start(division) })
    }

    /// The next channel event. There is none behind the end of track, nor behind what is not well formed or too late.
    pub fn next(&mut self, file: &[u8]) -> Option<Struck> {
        loop {
            let (delta, event) = self.step(file)?;
            self.time.pass(delta)?;
            match event {
                Event::Channel(bytes) => return Some((self.time.frame(), bytes)),
                Event::Tempo(new) => self.time.tempo = new,
                Event::EndOfTrack => return None,
                Event::SteppedOver => {}
            }
        }
    }

    /// One event of any kind, with its delta time.
    fn step(&mut self, file: &[u8]) -> Option<(u128, Event)> {
        let end = self.track_end.min(file.len());
        let mut track = Track { bytes: &file[..end], at: self.place, running: self.running };
        let (delta, event) = (track.quantity()?, track.event()?);
        (self.place, self.running) = (track.at, track.running);
        Some((delta, event))
    }
}
