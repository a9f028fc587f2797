//! Songs of several tracks: a file of format 0 or 1 gives one of format 0 that M-101 reads, with the same channel
//! events at the same frames, or the number and place of its first fault.
//!
//! The file is walked once, and all well-formed events in front of its first fault are listed with their ticks, track
//! behind track. A sort that keeps the order of equals makes one sequence of them: by tick, then by track, then in the
//! track's own order. Only then are the events timed, and written.

use crate::midi_file::{
    chunk, first_track, not_well_formed, u16_at, Event, Fault, Placed, Struck, Time, Track, OTHER_FORMAT,
    TEMPO_AT_START, TOO_LATE,
};

/// The numbers of a refusal that M-101 does not have.
pub const NO_ROOM: u32 = 43;
pub const TOO_MANY_TRACKS: u32 = 44;

pub const LONGEST_FILE: usize = 16_777_216;
pub const MOST_TRACKS: u16 = 256;

/// The most that a delta time of four bytes says.
const LONGEST_DELTA: u128 = 0x0fff_ffff;

/// The merged song's file, which has to fit into the room.
pub fn merge(file: &[u8], room: usize) -> Result<Vec<u8>, Fault> {
    let merged = song(file)?.file();
    if merged.len() > room {
        return Err(Fault { number: NO_ROOM, place: 0 });
    }
    Ok(merged)
}

/// An event with its tick, counted from the start of its track, and its place, which is behind its delta time.
#[derive(Clone, Debug, PartialEq, Eq)]
pub struct Ticked {
    pub tick: u128,
    pub place: usize,
    pub event: Event,
}

/// The events of all tracks in one sequence.
#[derive(Clone, Debug, PartialEq, Eq)]
pub struct Song {
    pub division: u16,
    pub events: Vec<Ticked>,
}

/// The merged song of a file, or the file's first fault. Events that are too late lie in front of what is not well
/// formed, since no others are in the sequence.
pub fn song(file: &[u8]) -> Result<Song, Fault> {
    if file.len() > LONGEST_FILE {
        return Err(not_well_formed(LONGEST_FILE));
    }
    let Head { tracks, division, behind } = head(file)?;
    let (mut events, fault) = walk(file, behind, tracks);
    events.sort_by_key(|event| event.tick);
    let song = Song { division, events };
    match song.too_late().or(fault) {
        Some(fault) => Err(fault),
        None => Ok(song),
    }
}

struct Head {
    tracks: u16,
    division: u16,
    behind: usize,
}

/// The head's fields are tested in their order in the file.
fn head(file: &[u8]) -> Result<Head, Fault> {
    if !file.starts_with(b"MThd") {
        return Err(not_well_formed(0));
    }
    let (_, body) = chunk(file, 0)?;
    if body.len() < 6 {
        return Err(not_well_formed(4));
    }
    let (format, tracks, division) = (u16_at(file, 8), u16_at(file, 10), u16_at(file, 12));
    match (format, tracks) {
        (0, 1) | (1, 1..=MOST_TRACKS) => {}
        (0, _) | (1, 0) => return Err(not_well_formed(10)),
        (1, _) => return Err(Fault { number: TOO_MANY_TRACKS, place: 10 }),
        _ => return Err(Fault { number: OTHER_FORMAT, place: 8 }),
    }
    match division {
        0 => Err(not_well_formed(12)),
        1..=0x7fff => Ok(Head { tracks, division, behind: body.end }),
        _ => Err(Fault { number: OTHER_FORMAT, place: 12 }),
    }
}

/// The well-formed events of so many tracks from a place on, track behind track, up to the first fault.
fn walk(file: &[u8], mut at: usize, tracks: u16) -> (Vec<Ticked>, Option<Fault>) {
    let mut list = Vec::new();
    for _ in 0..tracks {
        let body = match first_track(file, at) {
            Ok(body) => body,
            Err(fault) => return (list, Some(fault)),
        };
        at = body.end;
        let (events, fault) = Track { bytes: &file[..body.end], at: body.start, running: None }.events();
        list.extend(ticked(events));
        if fault.is_some() {
            return (list, fault);
        }
    }
    (list, None)
}

/// A track's events with their ticks, which are the sums of its delta times.
fn ticked(events: Vec<Placed>) -> impl Iterator<Item = Ticked> {
    let mut tick = 0;
    events.into_iter().map(move |Placed { delta, place, event }| {
        tick += delta;
        Ticked { tick, place, event }
    })
}

impl Song {
    /// Each event with its frame, which is nothing for one that is too late. A tempo counts for all tracks.
    fn framed(&self) -> impl Iterator<Item = (Option<u128>, &Ticked)> {
        let (mut time, mut tick) = (Time::at_start(self.division as u128), 0);
        self.events.iter().map(move |event| {
            let in_time = time.pass(event.tick - tick);
            tick = event.tick;
            if let Event::Tempo(new) = event.event {
                time.tempo = new;
            }
            (in_time.map(|()| time.frame()), event)
        })
    }

    /// The event that is too late and comes first in the file, which need not be the first in the sequence.
    fn too_late(&self) -> Option<Fault> {
        let late = self.framed().filter(|(frame, _)| frame.is_none());
        late.map(|(_, event)| event.place).min().map(|place| Fault { number: TOO_LATE, place })
    }

    /// The channel events with their frames, in the form that M-101's reader gives them.
    pub fn struck(&self) -> Vec<Struck> {
        let struck = |(frame, event): (Option<u128>, &Ticked)| match &event.event {
            Event::Channel(bytes) => Some((frame?, bytes.clone())),
            _ => None,
        };
        self.framed().filter_map(struck).collect()
    }

    /// The tick of the last end of track, where the song ends.
    pub fn end(&self) -> u128 {
        let ends = self.events.iter().filter(|event| event.event == Event::EndOfTrack);
        ends.map(|event| event.tick).max().unwrap_or(0)
    }

    /// The song as a file of format 0 with nothing in it that has no effect.
    fn file(&self) -> Vec<u8> {
        let mut track = WrittenTrack::at_start();
        for Ticked { tick, event, .. } in &self.events {
            match event {
                Event::Channel(bytes) => track.channel(*tick, bytes),
                Event::Tempo(micros) => track.tempo(*tick, *micros),
                Event::EndOfTrack | Event::SteppedOver => {}
            }
        }
        track.end(self.end());
        let fields = [0, 1, self.division].map(u16::to_be_bytes).concat();
        [written_chunk(b"MThd", &fields), written_chunk(b"MTrk", &track.bytes)].concat()
    }
}

fn written_chunk(name: &[u8; 4], body: &[u8]) -> Vec<u8> {
    [name, (body.len() as u32).to_be_bytes().as_slice(), body].concat()
}

/// A track as it is written: the tick of its last event, the tempo in force there, and the status that runs.
struct WrittenTrack {
    bytes: Vec<u8>,
    tick: u128,
    tempo: u128,
    running: Option<u8>,
}

impl WrittenTrack {
    fn at_start() -> WrittenTrack {
        WrittenTrack { bytes: Vec::new(), tick: 0, tempo: TEMPO_AT_START, running: None }
    }

    /// The delta time up to a tick. Where one cannot say it, tempo changes that change nothing stand in between.
    fn delta(&mut self, tick: u128) {
        while tick - self.tick > LONGEST_DELTA {
            self.tempo(self.tick + LONGEST_DELTA, self.tempo);
        }
        self.quantity(tick - self.tick);
        self.tick = tick;
    }

    /// A variable-length quantity in as few bytes as will do.
    fn quantity(&mut self, value: u128) {
        let needed = (1..4).find(|bytes| value >> (7 * bytes) == 0).unwrap_or(4);
        for byte in (0..needed).rev() {
            let more = if byte > 0 { 0x80 } else { 0 };
            self.bytes.push((value >> (7 * byte)) as u8 & 0x7f | more);
        }
    }

    fn channel(&mut self, tick: u128, event: &[u8]) {
        self.delta(tick);
        let runs = self.running == Some(event[0]);
        self.bytes.extend_from_slice(if runs { &event[1..] } else { event });
        self.running = Some(event[0]);
    }

    fn tempo(&mut self, tick: u128, micros: u128) {
        self.delta(tick);
        let [.., high, middle, low] = micros.to_be_bytes();
        self.bytes.extend_from_slice(&[0xff, 0x51, 3, high, middle, low]);
        (self.tempo, self.running) = (micros, None);
    }

    fn end(&mut self, tick: u128) {
        self.delta(tick);
        self.bytes.extend_from_slice(&[0xff, 0x2f, 0]);
    }
}

/// What a number of a refusal says, in words.
pub fn words(number: u32) -> &'static str {
    match number {
        OTHER_FORMAT => "a format other than 0 and 1, or a division in SMPTE frames",
        TOO_LATE => "an event later than an hour",
        NO_ROOM => "the merged song is longer than its room",
        TOO_MANY_TRACKS => "more than 256 tracks",
        _ => "not well formed, or longer than 16,777,216 bytes",
    }
}
