//! Cases from real files: a SoundFont bank and a standard MIDI file.

use crate::bank_admission::admit;
use crate::case::{MEMORY_ROOM, OUTPUT_ROOM};
use crate::merge_file;
use crate::midi_file::{self, Fault};
use crate::player::Player;
use crate::slots_keys_clock::Lent;
use crate::tables_and_steps::tables;
use std::io::{self, Error, Write};

const FRAMES_A_SECOND: u64 = 44_100;
const FRAMES_A_RENDER: u64 = (OUTPUT_ROOM / 2) as u64 - 128;
const HEADER: usize = 46;

/// How long a piece is heard behind its last event, where its voices sound on.
const LONGEST_ECHO: u64 = 20 * FRAMES_A_SECOND;

fn bad(what: &str) -> Error {
    Error::other(what.to_string())
}

fn u16_at(b: &[u8], at: usize) -> u16 {
    u16::from_le_bytes([b[at], b[at + 1]])
}

fn u32_at(b: &[u8], at: usize) -> u32 {
    u32::from_le_bytes([b[at], b[at + 1], b[at + 2], b[at + 3]])
}

/// The chunks of a RIFF body, each as its name and its bytes.
fn chunks(mut body: &[u8]) -> io::Result<Vec<([u8; 4], &[u8])>> {
    let mut found = Vec::new();
    while body.len() >= 8 {
        let length = u32_at(body, 4) as usize;
        let end = 8usize
            .checked_add(length)
            .filter(|end| *end <= body.len())
            .ok_or_else(|| bad("a chunk runs past the file's end"))?;
        found.push(([body[0], body[1], body[2], body[3]], &body[8..end]));
        body = &body[(end + length % 2).min(body.len())..];
    }
    Ok(found)
}

/// A list's body by its kind, among the chunks of the file.
fn list<'a>(found: &[([u8; 4], &'a [u8])], kind: &[u8; 4]) -> io::Result<&'a [u8]> {
    let of_kind = |(name, body): &&([u8; 4], &[u8])| name == b"LIST" && body.starts_with(kind);
    found.iter().find(of_kind).map(|(_, body)| &body[4..]).ok_or_else(|| bad("the bank has no such list"))
}

/// A bank as it is lent: the body of its pdta list, and samples.
pub struct RealBank {
    pub body: Vec<u8>,
    pub ram: Vec<i16>,
}

/// Reads a SoundFont file. The samples that fit into the RAM there is, the shortest first, are moved to its front together with
/// their headers' places; the others stay where they were, past the RAM's end or over the moved ones.
pub fn bank(file: &[u8]) -> io::Result<RealBank> {
    if file.len() < 12 || &file[..4] != b"RIFF" || &file[8..12] != b"sfbk" {
        return Err(bad("this is no SoundFont file"));
    }
    let lists = chunks(&file[12..])?;
    let body = list(&lists, b"pdta")?.to_vec();
    let samples: Vec<i16> = match chunks(list(&lists, b"sdta")?)?.iter().find(|(name, _)| name == b"smpl") {
        Some((_, bytes)) => bytes.chunks_exact(2).map(|two| i16::from_le_bytes([two[0], two[1]])).collect(),
        None => Vec::new(),
    };
    Ok(packed(body, &samples))
}

fn packed(mut body: Vec<u8>, samples: &[i16]) -> RealBank {
    let mut ram = Vec::new();
    let headers = match chunks(&body) {
        Ok(found) => found.iter().find(|(name, _)| name == b"shdr").map_or(0..0, |(_, h)| {
            let from = h.as_ptr() as usize - body.as_ptr() as usize;
            from..from + h.len()
        }),
        Err(_) => 0..0,
    };
    let mut places: Vec<usize> = headers.step_by(HEADER).filter(|at| at + HEADER <= body.len()).collect();
    places.pop();
    places.sort_by_key(|at| u32_at(&body, at + 24).wrapping_sub(u32_at(&body, at + 20)));
    for at in places {
        let (start, end) = (u32_at(&body, at + 20) as usize, u32_at(&body, at + 24) as usize);
        if start >= end || end > samples.len() || ram.len() + (end - start) > MEMORY_ROOM as usize {
            continue;
        }
        for offset in [20, 24, 28, 32] {
            let moved = u32_at(&body, at + offset).wrapping_sub(start as u32).wrapping_add(ram.len() as u32);
            body[at + offset..at + offset + 4].copy_from_slice(&moved.to_le_bytes());
        }
        ram.extend_from_slice(&samples[start..end]);
    }
    RealBank { body, ram }
}

impl RealBank {
    /// The presets that a channel can be sent to: program and bank.
    fn presets(&self) -> Vec<(u8, u8)> {
        let Ok(found) = chunks(&self.body) else { return Vec::new() };
        let heads = found.iter().find(|(name, _)| name == b"phdr").map_or(&[][..], |(_, heads)| heads);
        let mut all: Vec<(u16, u16)> = heads.chunks_exact(38).map(|h| (u16_at(h, 20), u16_at(h, 22))).collect();
        all.pop();
        all.iter().filter(|(program, bank)| *program < 128 && *bank < 128).map(|(p, b)| (*p as u8, *b as u8)).collect()
    }

    fn lend(&self, out: &mut impl Write) -> io::Result<()> {
        lend(out, b'B', &self.body)
    }

    /// The bank and its samples are lent, a fresh engine admits the bank and lists it to its end.
    fn lend_and_list(&self, out: &mut impl Write) -> io::Result<()> {
        self.lend(out)?;
        out.write_all(b"M")?;
        out.write_all(&(self.ram.len() as u32).to_le_bytes())?;
        for sample in &self.ram {
            out.write_all(&sample.to_le_bytes())?;
        }
        out.write_all(b"F\0\0\0\0a")?;
        for place in 0..=self.presets().len() as u32 + 1 {
            out.write_all(b"l")?;
            out.write_all(&place.to_le_bytes())?;
        }
        Ok(())
    }
}

/// A command of a length and so many bytes.
fn lend(out: &mut impl Write, letter: u8, bytes: &[u8]) -> io::Result<()> {
    out.write_all(&[letter])?;
    out.write_all(&(bytes.len() as u32).to_le_bytes())?;
    out.write_all(bytes)
}

/// One event of a MIDI file, by the tick at which it stands.
enum Event {
    Tempo(u64),
    Message(Vec<u8>),
}

/// The bytes of a track, read from the front.
struct Track<'a>(&'a [u8]);

impl Track<'_> {
    fn byte(&mut self) -> io::Result<u8> {
        let (first, rest) = self.0.split_first().ok_or_else(|| bad("a track is cut off"))?;
        self.0 = rest;
        Ok(*first)
    }

    fn number(&mut self) -> io::Result<u64> {
        let mut value = 0u64;
        for _ in 0..4 {
            let byte = self.byte()?;
            value = value << 7 | (byte & 127) as u64;
            if byte < 128 {
                return Ok(value);
            }
        }
        Err(bad("a length of a track is too long"))
    }

    fn take(&mut self, n: usize) -> io::Result<Vec<u8>> {
        (0..n).map(|_| self.byte()).collect()
    }
}

fn track_events(bytes: &[u8], into: &mut Vec<(u64, Event)>) -> io::Result<()> {
    let (mut track, mut tick, mut running) = (Track(bytes), 0u64, 0u8);
    while !track.0.is_empty() {
        tick += track.number()?;
        if track.0.first().is_some_and(|b| *b >= 128) {
            running = track.byte()?;
        }
        match running {
            0xFF => {
                let kind = track.byte()?;
                let length = track.number()? as usize;
                let said = track.take(length)?;
                if let (0x51, [a, b, c]) = (kind, said.as_slice()) {
                    into.push((tick, Event::Tempo((*a as u64) << 16 | (*b as u64) << 8 | *c as u64)));
                }
            }
            0xF0 | 0xF7 => {
                let length = track.number()? as usize;
                track.take(length)?;
            }
            0x80..=0xEF => {
                let data = if running & 0xE0 == 0xC0 { 1 } else { 2 };
                let mut message = vec![running];
                message.extend(track.take(data)?);
                into.push((tick, Event::Message(message)));
            }
            _ => return Err(bad("a track has a byte that begins no event")),
        }
    }
    Ok(())
}

/// The channel messages of a standard MIDI file, each with the frame at which it stands.
pub fn midi(file: &[u8]) -> io::Result<Vec<(u64, Vec<u8>)>> {
    if file.len() < 14 || &file[..4] != b"MThd" {
        return Err(bad("this is no MIDI file"));
    }
    let division = u16::from_be_bytes([file[12], file[13]]) as u64;
    if division == 0 || division >= 0x8000 {
        return Err(bad("the MIDI file does not count in beats"));
    }
    let (mut at, mut events) = (14, Vec::new());
    while at + 8 <= file.len() {
        let length = u32::from_be_bytes([file[at + 4], file[at + 5], file[at + 6], file[at + 7]]) as usize;
        let end = (at + 8).saturating_add(length).min(file.len());
        if &file[at..at + 4] == b"MTrk" {
            track_events(&file[at + 8..end], &mut events)?;
        }
        at = end;
    }
    events.sort_by_key(|(tick, _)| *tick);
    let (mut tempo, mut last, mut micros, mut out) = (500_000u64, 0u64, 0u64, Vec::new());
    for (tick, event) in events {
        micros += (tick - last) * tempo / division;
        last = tick;
        match event {
            Event::Tempo(new) => tempo = new,
            Event::Message(message) => out.push((micros * FRAMES_A_SECOND / 1_000_000, message)),
        }
    }
    Ok(out)
}

/// Sends a channel to a preset of the bank: its bank by control 0, then its program.
fn send(out: &mut impl Write, channel: u8, presets: &[(u8, u8)], which: usize) -> io::Result<()> {
    if let Some((program, bank)) = presets.get(which % presets.len().max(1)) {
        out.write_all(&[b'c', channel, 0, *bank, b'p', channel, *program])?;
    }
    Ok(())
}

/// The case: the bank is admitted and listed to its end, then the piece is played for so many seconds. A program of the piece
/// stands for the preset of that place in the bank's list, since few banks have all programs.
pub fn write_case(bank: &RealBank, piece: &[(u64, Vec<u8>)], seconds: u64, out: &mut impl Write) -> io::Result<()> {
    bank.lend_and_list(out)?;
    let presets = bank.presets();
    for channel in 0..16 {
        send(out, channel, &presets, channel as usize)?;
    }
    let mut clock = 0;
    for (frame, message) in piece.iter().take_while(|(frame, _)| *frame < seconds * FRAMES_A_SECOND) {
        clock = render_to(out, clock, *frame)?;
        let channel = message[0] & 15;
        match (message[0] >> 4, &message[1..]) {
            (8, [key, _]) => out.write_all(&[b'o', channel, *key])?,
            (9, [key, velocity]) => out.write_all(&[b'n', channel, *key, *velocity])?,
            (11, [0, _]) => {}
            (11, [control, value]) => out.write_all(&[b'c', channel, *control, *value])?,
            (12, [program]) => send(out, channel, &presets, *program as usize)?,
            (14, [low, high]) => out.write_all(&[b'b', channel, *low | (*high & 1) << 7, *high >> 1])?,
            _ => {}
        }
    }
    render_to(out, clock, clock + FRAMES_A_SECOND).map(|_| ())
}

/// Renders from one frame to another, in calls of at most so many frames; gives the second.
fn render_to(out: &mut impl Write, mut clock: u64, to: u64) -> io::Result<u64> {
    while clock < to {
        let frames = (to - clock).min(FRAMES_A_RENDER);
        clock += frames;
        render(out, b'r', clock as u32, frames as u32)?;
    }
    Ok(clock)
}

/// A render of so many frames to a clock value, into an output of just as many.
fn render(out: &mut impl Write, letter: u8, clock: u32, frames: u32) -> io::Result<()> {
    out.write_all(&[letter])?;
    out.write_all(&clock.to_le_bytes())?;
    out.write_all(&(2 * frames).to_le_bytes())
}

fn not_admitted(fault: Fault) -> Error {
    Error::other(format!("M-101 does not admit this file: {} at byte {}", fault.number, fault.place))
}

/// A song as the player takes it: of one that M-101 refuses the tracks are merged, into as many bytes as it takes.
fn playable(song: &[u8]) -> io::Result<Vec<u8>> {
    match midi_file::read(song) {
        Ok(_) => Ok(song.to_vec()),
        Err(_) => merge_file::merge(song, midi_file::LONGEST_FILE).map_err(not_admitted),
    }
}

/// The case of a whole piece that the player plays, merged where that is needed: it is started and rendered until it is
/// over and silent, or for so long behind its last event. Each render is followed by the question whether it is over.
/// How many renders that takes is found by playing it here.
pub fn song_case(bank: &RealBank, song: &[u8]) -> io::Result<Vec<u8>> {
    let song = &playable(song)?;
    let renders = renders_of(bank, song)?;
    let (mut case, frames) = (Vec::new(), FRAMES_A_RENDER as u32);
    bank.lend_and_list(&mut case)?;
    lend(&mut case, b'L', song)?;
    case.push(b'G');
    for number in 1..=renders {
        render(&mut case, b'V', number * frames, frames)?;
        case.push(b'E');
    }
    Ok(case)
}

/// How many renders a song takes.
fn renders_of(bank: &RealBank, song: &[u8]) -> io::Result<u32> {
    let (mut player, admitted) = (Player::fresh(0), admit(&bank.body));
    let lent = Lent { bank: &admitted, ram: &bank.ram, rom: &[] };
    player.start(tables(), song).map_err(not_admitted)?;
    let (mut renders, mut echo) = (0, 0);
    let mut output = vec![0.0; 2 * FRAMES_A_RENDER as usize];
    while !player.over() || (player.engine.word() != 0 && echo < LONGEST_ECHO) {
        echo = if player.over() { echo + FRAMES_A_RENDER } else { 0 };
        renders += 1;
        let clock = renders * FRAMES_A_RENDER as u32;
        player.render(tables(), &lent, song, clock, &mut output).expect("the memories stay as they are");
    }
    Ok(renders)
}

/// The strikes: every preset of the bank, keys a third apart, four velocities.
pub fn write_strikes(bank: &RealBank, out: &mut impl Write) -> io::Result<()> {
    bank.lend(out)?;
    for (program, number) in bank.presets() {
        for key in (0..128).step_by(3) {
            for velocity in [1, 45, 90, 127] {
                out.write_all(&[b'h', program, number, key, velocity])?;
            }
        }
    }
    Ok(())
}
