//! Document 01, "Tables and steps": the octave, gain and velocity tables from their rules, a step, frames of a time.

use crate::big::Natural;
use std::sync::OnceLock;

/// The tables of 01, each entry found by its rule with exact whole numbers. Of the gains the first 200 are kept (02,
/// M-105).
pub struct Tables {
    octave: Table<u64>,
    kept_gain: Table<i64>,
    velocity: Table<i64>,
}

/// Entries that are found by a rule, each at its first use, and then kept.
struct Table<T> {
    rule: fn(u64) -> T,
    entries: Vec<OnceLock<T>>,
}

impl<T: Copy> Table<T> {
    fn new(length: usize, rule: fn(u64) -> T) -> Table<T> {
        Table { rule, entries: (0..length).map(|_| OnceLock::new()).collect() }
    }

    fn at(&self, i: u64) -> T {
        *self.entries[i as usize].get_or_init(|| (self.rule)(i))
    }
}

/// The tables, made at the first use.
pub fn tables() -> &'static Tables {
    static TABLES: OnceLock<Tables> = OnceLock::new();
    TABLES.get_or_init(Tables::new)
}

/// The largest whole number for which `holds`, where it holds up to some number and for none above.
/// The guess only saves time: both sides of the answer are tested exactly.
fn largest(guess: u64, holds: impl Fn(u64) -> bool) -> u64 {
    let mut number = guess;
    while !holds(number) {
        number -= 1;
    }
    while holds(number + 1) {
        number += 1;
    }
    number
}

/// Octave table: the largest T with T^1200 <= 2^(i + 36,000).
fn octave_entry(i: u64) -> u64 {
    let bound = Natural::two_to(i + 36_000);
    let guess = 2f64.powf(30.0 + i as f64 / 1200.0) as u64;
    largest(guess, |t| Natural::new(t).power(1200) <= bound)
}

/// Gain by 01's rule, for a in 0..1,440: the largest G with G^200 · 10^a <= 2^4,800.
pub fn gain_by_rule(a: u64) -> i64 {
    let bound = Natural::two_to(4_800);
    let tens = Natural::new(10).power(a as u32);
    let guess = 2f64.powf(24.0) * 10f64.powf(-(a as f64) / 200.0);
    let holds = |g: u64| Natural::new(g).power(200).times(&tens) <= bound;
    largest(guess as u64, holds) as i64
}

/// Velocity: the largest a with 10^a · v^400 <= 127^400.
fn velocity_entry(v: u64) -> i64 {
    let bound = Natural::new(127).power(400);
    let ten = Natural::new(10);
    let mut product = Natural::new(v).power(400).times(&ten);
    let mut a = 0;
    while product <= bound {
        product = product.times(&ten);
        a += 1;
    }
    a
}

impl Tables {
    fn new() -> Tables {
        Tables {
            octave: Table::new(1_200, octave_entry),
            kept_gain: Table::new(200, gain_by_rule),
            velocity: Table::new(127, |i| velocity_entry(i + 1)),
        }
    }

    /// T of the octave table, for i in 0..1,199.
    pub fn octave(&self, i: i64) -> u64 {
        self.octave.at(i as u64)
    }

    /// Step for c cents and a sample rate, in 2^-24 samples, with c = 1,200·o + i:
    /// floor(T · rate / (44,100 · 2^(6 - o))). c is a held pitch total, -9,600..4,800, so that 6 - o is 2 or more.
    pub fn step(&self, cents: i64, rate: u64) -> u64 {
        let (o, i) = (cents.div_euclid(1200), cents.rem_euclid(1200));
        self.octave(i) * rate / (44_100 << (6 - o))
    }

    /// Frames for t timecents: 0 if t <= -32,768; else t held to -12,000..top, and floor(T · 44,100 · 2^o / 2^30).
    /// The top is 5,000 for delay and hold, and 8,000 else; so o is -10..6.
    pub fn frames(&self, timecents: i64, top: i64) -> u64 {
        if timecents <= -32_768 {
            return 0;
        }
        let held = timecents.clamp(-12_000, top);
        let (o, i) = (held.div_euclid(1200), held.rem_euclid(1200));
        self.octave(i) * 44_100 / (1 << (30 - o))
    }

    /// Gain of an attenuation of 0 or more: a kept one, divided by ten, rounding down, once for each further 200 cB; 0
    /// above 1,440.
    pub fn gain(&self, attenuation: i64) -> i64 {
        if attenuation > 1_440 {
            return 0;
        }
        let kept = self.kept_gain.at(attenuation as u64 % 200);
        (0..attenuation / 200).fold(kept, |gain, _| gain / 10)
    }

    /// Attenuation of a velocity, 1..127.
    pub fn velocity(&self, velocity: u8) -> i64 {
        self.velocity.at(velocity as u64 - 1)
    }

    /// Attenuation of control 7 or 11: as of a velocity, and 960 for their 0.
    pub fn control(&self, value: u8) -> i64 {
        if value == 0 {
            return 960;
        }
        self.velocity(value)
    }
}

/// The bend's part of the pitch total: floor((bend - 8,192) · 25 / 1,024).
pub fn bend_cents(bend: u16) -> i64 {
    ((bend as i64 - 8_192) * 25).div_euclid(1_024)
}
