//! Songs of several tracks by chance: plans of their events, the files of plans, whole and changed, and rooms near what
//! they need.

use super::chance::Chance;
use super::song_builder::*;
use super::song_damage::{change, damaged};
use super::wave_chance::room_near;
use crate::merge_file::merge;
use crate::merges::with_room;
use crate::waves::FILE_ROOM;
use std::io::{self, Write};

const STORED: usize = 500;

/// Those that are stored.
pub fn all() -> Vec<Named> {
    let c = &mut Chance::new(80_000);
    (0..STORED).map(|n| (format!("by chance {n}"), some_input(c))).collect()
}

/// Writes so many files in the form of merges.
pub fn write(seed: u64, count: u64, out: &mut impl Write) -> io::Result<()> {
    let c = &mut Chance::new(seed);
    for _ in 0..count {
        out.write_all(&some_input(c))?;
    }
    out.flush()
}

/// A file with its room.
fn some_input(c: &mut Chance) -> Vec<u8> {
    let file = some_file(c);
    let need = merge(&file, FILE_ROOM as usize).map_or(file.len(), |song| song.len());
    let room = room_near(c, need as u32);
    with_room(&file, room)
}

/// A file of a plan; some have an event that may be too late, and some are changed, in a track or anywhere.
fn some_file(c: &mut Chance) -> Vec<u8> {
    let kind = c.pick(&[Kind::Ordinary, Kind::Ordinary, Kind::Still]);
    let mut plan = plan(c, kind);
    if c.once_in(6) {
        put_late(c, &mut plan);
    }
    match c.from(0, 9) {
        0..=5 => file(c, &plan).0,
        6..=8 => file_of(c, &plan, 3).0,
        _ => {
            let (file, _) = file(c, &plan);
            damaged(c, &file)
        }
    }
}

// Plans

/// An event of a plan, with its delta time; a channel event has its status written out.
pub type Planned = (u32, Vec<u8>);

/// The tracks of a plan. Each ends with its end of track.
pub struct Plan {
    pub division: u16,
    pub tracks: Vec<Vec<Planned>>,
}

/// How a plan is drawn: ordinary songs, and ones that stand nearly still, with gaps that no delta time can say.
#[derive(Clone, Copy, PartialEq)]
pub enum Kind {
    Ordinary,
    Still,
}

fn planned_tempo(c: &mut Chance, kind: Kind) -> Vec<u8> {
    let micros = if kind == Kind::Still { c.pick(&[0, 0, 1, 3]) } else { c.from(0, 3_000_000) as u32 };
    let more = vec![0x99; c.pick(&[0, 0, 0, 1, 5])];
    meta(0x51, &[&micros.to_be_bytes()[1..], &more].concat())
}

pub fn planned_event(c: &mut Chance, kind: Kind) -> Vec<u8> {
    if kind == Kind::Still && c.once_in(2) {
        return meta(1, b"");
    }
    let [a, b] = [0; 2].map(|_| c.from(0, 127) as u8);
    let channel = c.pick(&[0, 0, 0, 0, 9]);
    match c.from(0, 15) {
        0..=8 => vec![0x90 | channel, a, b],
        9 => vec![0x80 | channel, a, b],
        10 => vec![0xb0 | channel, a, b],
        11 => vec![c.pick(&[0xc0, 0xd0]) | channel, a],
        12 => vec![c.pick(&[0xa0, 0xe0]) | channel, a, b],
        13 => planned_tempo(c, kind),
        14 => meta(c.pick(&[1, 5, 0x58, 0x7f]), &vec![b | 0x80; a as usize]),
        _ => exclusive(c.pick(&[0xf0, 0xf7]), &vec![b | 0x80; a as usize / 9]),
    }
}

fn planned_delta(c: &mut Chance, kind: Kind) -> u32 {
    if kind == Kind::Still && c.once_in(2) {
        return c.pick(&[LARGEST_QUANTITY, LARGEST_QUANTITY, LARGEST_QUANTITY - 1, LARGEST_QUANTITY / 2]);
    }
    let most = c.pick(&[0, 0, 1, 20, 127, 128, 400]);
    c.from(0, most) as u32
}

fn planned_track(c: &mut Chance, kind: Kind) -> Vec<Planned> {
    let opening = (kind == Kind::Still).then(|| (0, tempo(1)));
    let count = c.from(0, 25);
    let events = (0..count).map(|_| (planned_delta(c, kind), planned_event(c, kind))).collect::<Vec<_>>();
    let end = (c.from(0, 300) as u32, END.to_vec());
    opening.into_iter().chain(events).chain([end]).collect()
}

pub fn plan(c: &mut Chance, kind: Kind) -> Plan {
    let division = c.pick(&[24, 96, 480, 32_767]);
    let tracks = c.pick(&[1, 2, 2, 3, 4, 9]);
    Plan { division, tracks: (0..tracks).map(|_| planned_track(c, kind)).collect() }
}

/// The ticks of an hour where a beat has 24 and the tempo is that of the start.
pub const HOUR_OF_24: u32 = 7_200 * 24;

/// A note in front of some track that moves all of it to an hour or more behind the start, or nearly so.
pub fn put_late(c: &mut Chance, plan: &mut Plan) {
    let track = c.from(0, plan.tracks.len() as i64 - 1) as usize;
    let delta = HOUR_OF_24 * c.pick(&[1, 4, 20, 100, 1_500]);
    plan.tracks[track].insert(0, (delta, NOTE.to_vec()));
}

// Files

/// A track's bytes, and the places where its events begin. For each delta time `spell` says its bytes, and whether a
/// status that runs is left out behind it.
pub fn track(events: &[Planned], mut spell: impl FnMut(u32) -> (Vec<u8>, bool)) -> (Vec<u8>, Vec<usize>) {
    let (mut piece, mut running, mut places) = (Piece::default(), 0, Vec::new());
    for (delta, event) in events {
        let (bytes, leave_out) = spell(*delta);
        piece = piece.raw(&bytes);
        places.push(piece.bytes.len());
        piece = piece.raw(&event[if leave_out && event[0] == running { 1 } else { 0 }..]);
        running = if event[0] < 0xf0 { event[0] } else { 0 };
    }
    (piece.bytes, places)
}

/// A plan's file of format 1, and the places of all events, by track. Other chunks and bytes stand in between.
pub fn file(c: &mut Chance, plan: &Plan) -> (Vec<u8>, Vec<Vec<usize>>) {
    file_of(c, plan, 0)
}

/// The same, with a change in one of so many tracks, or in none where that is 0. The places are those without a change.
fn file_of(c: &mut Chance, plan: &Plan, changed: i64) -> (Vec<u8>, Vec<Vec<usize>>) {
    let (mut file, mut all) = (head(1, plan.tracks.len() as u16, plan.division), Vec::new());
    for events in &plan.tracks {
        if c.once_in(8) {
            file.extend(chunk(b"XFIH", &vec![0x4d; c.from(0, 9) as usize]));
        }
        let spell = |delta| (quantity_in(delta, c.pick(&[4, quantity(delta).len()])), c.once_in(2));
        let (mut bytes, places) = track(events, spell);
        bytes.extend(vec![0xfe; c.pick(&[0, 0, 0, 3])]);
        if changed > 0 && c.once_in(changed) {
            change(c, &mut bytes);
        }
        all.push(places.iter().map(|place| file.len() + 8 + place).collect());
        file.extend(chunk(b"MTrk", &bytes));
    }
    (file, all)
}
