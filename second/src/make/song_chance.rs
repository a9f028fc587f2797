//! Songs by chance from fixed seeds: whole ones, and the same with bytes that were changed.

use super::chance::Chance;
use super::song_builder::*;
use super::song_damage::damaged;

const WHOLE: u64 = 240;
const DAMAGED: u64 = 160;

pub fn all() -> Vec<Named> {
    let whole = (0..WHOLE).map(|seed| (format!("song {seed}"), song_of_seed(30_000 + seed)));
    let changed = (0..DAMAGED).map(|seed| {
        let song = song_of_seed(40_000 + seed);
        (format!("damaged song {seed}"), damaged(&mut Chance::new(50_000 + seed), &song))
    });
    whole.chain(changed).collect()
}

fn song_of_seed(seed: u64) -> Vec<u8> {
    let c = &mut Chance::new(seed);
    let phrases = c.from(1, 12);
    song(c, phrases)
}

/// Songs of some 200 to 2,000 bytes.
pub fn songs(seed: u64, count: usize) -> Vec<Vec<u8>> {
    let c = &mut Chance::new(seed);
    let right = |file: &Vec<u8>| (200..=2_000).contains(&file.len());
    std::iter::repeat_with(|| {
        let phrases = c.from(6, 50);
        song(c, phrases)
    })
    .filter(right)
    .take(count)
    .collect()
}

/// A song by chance of so many phrases. It is well formed and not too long.
fn song(c: &mut Chance, phrases: i64) -> Vec<u8> {
    let division = c.pick(&[1, 24, 48, 96, 96, 120, 192, 384, 480, 480, 960, 32_767]);
    let mut tune = Tune::new(c, division);
    tune.opening(c);
    for _ in 0..phrases {
        tune.phrase(c);
    }
    let rest = tune.ticks(c);
    let mut track = tune.track.then(rest, &END).bytes;
    if c.once_in(6) {
        track.extend(any_bytes(c, 12));
    }
    let mut fields = head_fields(0, 1, division);
    if c.once_in(8) {
        fields.extend(any_bytes(c, 5));
    }
    let mut file = chunk(b"MThd", &fields);
    if c.once_in(8) {
        file.extend(chunk(b"XFIH", &any_bytes(c, 9)));
    }
    file.extend(chunk(b"MTrk", &track));
    if c.once_in(8) {
        file.extend(any_bytes(c, 20));
    }
    file
}

fn any_bytes(c: &mut Chance, most: i64) -> Vec<u8> {
    (0..c.from(0, most)).map(|_| c.number() as u8).collect()
}

fn data(c: &mut Chance) -> u8 {
    c.from(0, 127) as u8
}

/// A track as it grows: the status that runs (0 for none), the ticks of a beat, and how often of ten a status is written
/// where it need not be, with a chance of its own for that.
struct Tune {
    track: Piece,
    running: u8,
    beat: i64,
    written: i64,
    habit: Chance,
}

impl Tune {
    fn new(c: &mut Chance, division: u16) -> Tune {
        let (written, habit) = (c.from(0, 9), Chance::new(c.number()));
        Tune { track: Piece::default(), running: 0, beat: division as i64, written, habit }
    }

    fn put(&mut self, delta: u32, event: &[u8]) {
        self.track = std::mem::take(&mut self.track).then(delta, event);
    }

    /// A channel event, its status left out where it runs and chance will have it so.
    fn channel(&mut self, delta: u32, event: &[u8]) {
        let written = event[0] != self.running || self.habit.from(0, 9) < self.written;
        self.put(delta, &event[if written { 0 } else { 1 }..]);
        self.running = event[0];
    }

    /// A meta or system exclusive event.
    fn other(&mut self, delta: u32, event: &[u8]) {
        self.put(delta, event);
        self.running = 0;
    }

    /// Some ticks: none, a part of a beat, or up to two beats.
    fn ticks(&self, c: &mut Chance) -> u32 {
        let most = c.pick(&[0, 0, self.beat / 8, self.beat / 2, self.beat, 2 * self.beat]);
        c.from(most / 2, most) as u32
    }

    /// The title, the signatures, a tempo, and what sets an instrument up.
    fn opening(&mut self, c: &mut Chance) {
        if c.once_in(2) {
            self.other(0, &meta(3, b"A peal for the evening"));
        }
        if c.once_in(3) {
            self.other(0, &exclusive(0xf0, &[0x7e, 0x7f, 0x09, 0x01, 0xf7]));
        }
        if c.once_in(2) {
            self.other(0, &meta(0x58, &[4, 2, 24, 8]));
            self.other(0, &meta(0x59, &[0xfd, 0]));
        }
        if !c.once_in(4) {
            self.other(0, &tempo(c.from(250_000, 1_200_000) as u32));
        }
        for channel in 0..c.from(0, 3) as u8 {
            self.channel(0, &[0xc0 | channel, data(c)]);
            self.channel(0, &[0xb0 | channel, 7, data(c)]);
        }
    }

    fn phrase(&mut self, c: &mut Chance) {
        let channel = c.pick(&[0, 0, 0, 1, 2, 9, 15]);
        let delta = self.ticks(c);
        match c.from(0, 19) {
            0..=8 => self.chord(c, channel),
            9..=11 => self.melody(c, channel),
            12 => self.channel(delta, &[0xb0 | channel, c.pick(&[1, 7, 11, 64, 123]), data(c)]),
            13 => self.bend(c, channel),
            14 => self.channel(delta, &[0xd0 | channel, data(c)]),
            15 => self.channel(delta, &[0xa0 | channel, data(c), data(c)]),
            16 => self.channel(delta, &[0xc0 | channel, data(c)]),
            17 => self.other(delta, &tempo(c.from(250_000, 1_200_000) as u32)),
            18 => self.other(delta, &meta(c.pick(&[1, 5, 6, 7, 0x20, 0x7f]), &any_bytes(c, 12))),
            _ => self.other(delta, &exclusive(c.pick(&[0xf0, 0xf7]), &any_bytes(c, 9))),
        }
    }

    /// Keys struck together and let go together, by note-off or by velocity 0.
    fn chord(&mut self, c: &mut Chance, channel: u8) {
        let root = c.from(30, 90) as u8;
        let keys = &[root, root + 4, root + 7, root + 12][..c.from(1, 4) as usize];
        self.together(0, 0x90 | channel, keys, c.from(1, 127) as u8);
        let (status, velocity) = if c.once_in(3) { (0x80, 64) } else { (0x90, 0) };
        self.together(self.ticks(c), status | channel, keys, velocity);
    }

    /// The same for each key at one tick.
    fn together(&mut self, delta: u32, status: u8, keys: &[u8], velocity: u8) {
        for (place, key) in keys.iter().enumerate() {
            self.channel(if place == 0 { delta } else { 0 }, &[status, *key, velocity]);
        }
    }

    /// Keys one behind the other.
    fn melody(&mut self, c: &mut Chance, channel: u8) {
        for _ in 0..c.from(2, 8) {
            let (rest, length, key) = (self.ticks(c), self.ticks(c), c.from(48, 84) as u8);
            self.channel(rest, &[0x90 | channel, key, c.from(1, 127) as u8]);
            self.channel(length, &[0x90 | channel, key, 0]);
        }
    }

    fn bend(&mut self, c: &mut Chance, channel: u8) {
        for _ in 0..c.from(1, 5) {
            let delta = self.ticks(c).min(9);
            self.channel(delta, &[0xe0 | channel, data(c), data(c)]);
        }
    }
}
