//! The piece: a ring of eight, a tune, the hour. Times are milliseconds.

use std::fmt::Write;

#[derive(Clone, Copy, Debug, PartialEq, Eq)]
pub enum Action {
    /// Key and velocity.
    Strike(u8, u8),
    Release(u8),
    Control(u8, u8),
    Program(u8),
}

/// What is done at a millisecond.
#[derive(Clone, Copy, Debug, PartialEq, Eq)]
pub struct Moment {
    pub at: u64,
    pub action: Action,
}

impl Moment {
    pub fn frame(&self) -> u64 {
        frame_of(self.at)
    }
}

/// The frame of a millisecond, of 44,100 a second, rounded down.
pub fn frame_of(millisecond: u64) -> u64 {
    millisecond * 441 / 10
}

/// Control 7 at the start of the piece, and control 123: all notes off.
const MASTER: Action = Action::Control(7, 112);
const LET_GO: Action = Action::Control(123, 0);

/// What is written so far, and the time at which the next part begins.
struct Score {
    moments: Vec<Moment>,
    now: u64,
}

/// The piece in the order in which it is played, and when it ends.
pub fn piece() -> (Vec<Moment>, u64) {
    let mut score = Score { moments: vec![Moment { at: 0, action: MASTER }], now: 500 };
    score.ringing();
    score.tune();
    score.hour();
    score.moments.sort_by_key(|moment| moment.at);
    (score.moments, score.now)
}

/// One bell twice: its hum an exact octave below the prime (program 0), and 5 cents off (program 1).
pub fn two_octaves() -> Vec<Moment> {
    let actions = [
        (0, Action::Control(7, 127)),
        (100, Action::Strike(60, 100)),
        (7_000, LET_GO),
        (10_000, Action::Program(1)),
        (10_100, Action::Strike(60, 100)),
        (17_000, LET_GO),
    ];
    actions.map(|(at, action)| Moment { at, action }).to_vec()
}

/// The ring of eight, treble to tenor.
const RING: [u8; 8] = [72, 71, 69, 67, 65, 64, 62, 60];

/// Rounds twice, then a plain hunt: neighbours change places, from the first bell on and from the second on by turns,
/// until sixteen changes have come back to rounds.
fn rows() -> Vec<[usize; 8]> {
    let rounds = [0, 1, 2, 3, 4, 5, 6, 7];
    let mut rows = vec![rounds, rounds];
    let mut row = rounds;
    for change in 0..16 {
        for place in (change % 2..7).step_by(2) {
            row.swap(place, place + 1);
        }
        rows.push(row);
    }
    rows
}

/// A bar of the tune: the bass, three middle bells, and the melody on three beats. 0 lets it ring; a key below 0 begins
/// a tremolo with the melody's first.
type Bar = [i16; 7];

const TUNE: [Bar; 15] = [
    [60, 64, 67, 72, 76, 79, 84],
    [59, 62, 67, 71, 83, 0, 79],
    [57, 60, 64, 69, 81, 76, 72],
    [55, 64, 67, 71, 79, 0, 0],
    [53, 60, 65, 69, 81, 84, 81],
    [52, 64, 67, 72, 79, 0, 76],
    [50, 62, 65, 69, 77, 76, 74],
    [55, 62, 67, 71, 79, -83, 0],
    [60, 64, 67, 72, 76, 79, 84],
    [59, 62, 67, 71, 83, 0, 79],
    [57, 60, 64, 69, 81, 76, 72],
    [52, 64, 68, 71, 80, 0, 76],
    [53, 60, 65, 69, 81, 79, 77],
    [53, 60, 65, 68, 80, 77, 72],
    [55, 60, 64, 67, 79, 0, 74],
];

/// The chord behind the tune, rolled from the bottom.
const CHORD: [u8; 8] = [48, 55, 60, 64, 67, 72, 76, 84];

impl Score {
    /// An action so many milliseconds behind the part's beginning.
    fn put(&mut self, behind: u64, action: Action) {
        self.moments.push(Moment { at: self.now + behind, action });
    }

    fn strike(&mut self, behind: u64, key: i16, velocity: usize) {
        self.put(behind, Action::Strike(key.unsigned_abs() as u8, velocity as u8));
    }

    /// All rows, with a gap in front of every second one; then the ropes are let go.
    fn ringing(&mut self) {
        for (number, row) in rows().iter().enumerate() {
            self.row(number, row);
            self.now += 1_600 + number as u64 % 2 * 200;
        }
        self.now += 2_500;
        self.put(0, LET_GO);
        self.now += 700;
    }

    /// A row, a few milliseconds uneven: ringers are not clocks. A bell is released as it is struck again; the tenor is
    /// struck harder.
    fn row(&mut self, number: usize, row: &[usize; 8]) {
        self.now -= 6;
        for (place, bell) in row.iter().enumerate() {
            let behind = (200 * place + (number * 7 + bell * 5) % 13) as u64;
            self.put(behind, Action::Release(RING[*bell]));
            self.put(behind, Action::Strike(RING[*bell], if *bell == 7 { 112 } else { 104 }));
        }
        self.now += 6;
    }

    /// The bars, slower at the end, and the rolled chord.
    fn tune(&mut self) {
        for (number, bar) in TUNE.iter().enumerate() {
            let beat = match number {
                0..=12 => 500,
                13 => 540,
                _ => 630,
            };
            self.release_bar_before_last(number);
            self.bar(number, bar, beat);
            self.now += 3 * beat;
        }
        for (place, key) in CHORD.iter().enumerate() {
            self.put(70 * place as u64, Action::Strike(*key, 100 + place as u8));
        }
        self.now += 6_000;
    }

    /// Bells ring on for two bars.
    fn release_bar_before_last(&mut self, number: usize) {
        let Some(before) = number.checked_sub(2) else { return };
        for key in TUNE[before].iter().filter(|key| **key != 0) {
            self.put(0, Action::Release(key.unsigned_abs() as u8));
        }
    }

    /// The bass on the bar's first beat, the middle bells between the beats, the melody just behind them.
    fn bar(&mut self, number: usize, bar: &Bar, beat: u64) {
        let [bass, middle @ .., first, second, third] = *bar;
        self.strike(0, bass, 108);
        for (place, key) in middle.iter().enumerate() {
            self.strike(beat * place as u64 + beat / 2, *key, 80 + number % 4 * 3 + place * 2);
        }
        for (place, key) in [first, second, third].iter().enumerate() {
            let behind = beat * place as u64;
            match key.signum() {
                1 => self.strike(behind + 12, *key, 104 + number % 8),
                -1 => self.tremolo(behind, *key, first),
                _ => {}
            }
        }
    }

    /// Ten strokes on two bells by turns, growing.
    fn tremolo(&mut self, behind: u64, one: i16, other: i16) {
        for stroke in 0..10 {
            let key = if stroke % 2 == 0 { one } else { other };
            self.strike(behind + 100 * stroke as u64, key, 72 + 4 * stroke);
        }
    }

    /// Four o'clock on the biggest bell. The strokes are 262 turns of its hum apart, so that they add up. It rings on
    /// alone for 14 s; then all is released, and 5 s later the piece ends.
    fn hour(&mut self) {
        for stroke in 0..4 {
            self.strike(4_007 * stroke, 48, 127);
        }
        self.now += 12_000 + 14_000;
        self.put(0, LET_GO);
        self.now += 5_000;
    }
}

// Files

/// A line for each moment: frame, letter, channel 0, and two numbers.
pub fn lines(moments: &[Moment]) -> String {
    let mut text = String::new();
    for moment in moments {
        let (letter, one, two) = match moment.action {
            Action::Strike(key, velocity) => ('n', key, velocity),
            Action::Release(key) => ('o', key, 0),
            Action::Control(control, value) => ('c', control, value),
            Action::Program(program) => ('p', program, 0),
        };
        writeln!(text, "{} {letter} 0 {one} {two}", moment.frame()).expect("a string can be written");
    }
    text
}

/// A MIDI file of format 0: 500 ticks a beat of half a second, so that a tick is a millisecond.
pub fn midi_file(moments: &[Moment], end: u64) -> Vec<u8> {
    let mut track = vec![0, 0xff, 0x51, 3, 0x07, 0xa1, 0x20];
    let mut last = 0;
    for moment in moments {
        track.extend(quantity(moment.at - last));
        track.extend(message(moment.action));
        last = moment.at;
    }
    track.extend(quantity(end - last));
    track.extend([0xff, 0x2f, 0]);
    let head = [6u32.to_be_bytes().as_slice(), &[0, 0, 0, 1], &500u16.to_be_bytes()].concat();
    [b"MThd".as_slice(), &head, b"MTrk", &(track.len() as u32).to_be_bytes(), &track].concat()
}

fn message(action: Action) -> Vec<u8> {
    match action {
        Action::Strike(key, velocity) => vec![0x90, key, velocity],
        Action::Release(key) => vec![0x80, key, 0],
        Action::Control(control, value) => vec![0xb0, control, value],
        Action::Program(program) => vec![0xc0, program],
    }
}

/// Seven bits a byte, the highest first; all but the last have their top bit set.
fn quantity(n: u64) -> Vec<u8> {
    let mut bytes = vec![(n & 127) as u8];
    let mut left = n >> 7;
    while left > 0 {
        bytes.insert(0, (left & 127) as u8 | 128);
        left >>= 7;
    }
    bytes
}
