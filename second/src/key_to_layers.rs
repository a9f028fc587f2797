//! Document 01, "From a key to layers": the preset, the ranges, the layers of a key, and the numbers of each layer.

use crate::bank::{amount, instrument_value, window, Bank, Generator, Preset, Sample, SoundingZone, Window, Zones};
use crate::tables_and_steps::Tables;

/// "The channel's preset is the first phdr record with its bank and program; the terminal is not one."
pub fn find_preset(bank: &Bank, bank_number: u16, program: u16) -> Option<&Preset> {
    let mut presets = bank.presets.iter();
    presets.find(|p| p.bank == bank_number && p.program == program)
}

// Ranges

/// "A key range (43) counts only as first generator; a velocity range (44) as first, or as second behind a key range."
/// The place is the one in the zone as stored.
fn key_range(generators: &[Generator]) -> Option<u16> {
    let first = generators.first()?;
    (first.operator == 43).then_some(first.amount)
}

fn velocity_range(generators: &[Generator]) -> Option<u16> {
    let place = usize::from(key_range(generators).is_some());
    let candidate = generators.get(place)?;
    (candidate.operator == 44).then_some(candidate.amount)
}

/// The low byte is the low end, the high byte the high end; low above high holds nothing.
fn in_range(range: u16, value: u8) -> bool {
    (range & 0xFF) <= value as u16 && value as u16 <= range >> 8
}

/// "A local range replaces the global one; default 0..127."
fn zone_matches(zones: &Zones, zone: &SoundingZone, key: u8, velocity: u8) -> bool {
    const ALL: u16 = 127 << 8;
    let keys = key_range(&zone.generators).or(key_range(&zones.global)).unwrap_or(ALL);
    let velocities = velocity_range(&zone.generators).or(velocity_range(&zones.global)).unwrap_or(ALL);
    in_range(keys, key) && in_range(velocities, velocity)
}

// Layers

/// A layer: a sounding preset zone and a sounding zone of its instrument, each with the zones it stands among.
pub struct Layer<'a> {
    pub preset: &'a Zones,
    pub preset_zone: &'a SoundingZone,
    pub instrument: &'a Zones,
    pub zone: &'a SoundingZone,
    pub sample: &'a Sample,
}

/// "Each matching sounding preset zone in file order, and for each its instrument's matching sounding zones in file
/// order. The search stops at the thirty-third layer": so the list has 33 layers at most.
pub fn layers<'a>(bank: &'a Bank, preset: &'a Preset, key: u8, velocity: u8) -> Vec<Layer<'a>> {
    let mut found = Vec::new();
    for preset_zone in &preset.zones.sounding {
        if !zone_matches(&preset.zones, preset_zone, key, velocity) {
            continue;
        }
        let instrument = &bank.instruments[preset_zone.number];
        for zone in &instrument.sounding {
            if !zone_matches(instrument, zone, key, velocity) {
                continue;
            }
            found.push(Layer {
                preset: &preset.zones,
                preset_zone,
                instrument,
                zone,
                sample: &bank.samples[zone.number],
            });
            if found.len() == 33 {
                return found;
            }
        }
    }
    found
}

// Values

/// "Generators 0-4, 12, 45, 46, 47, 50, 54, 57, 58 count in instruments only."
fn in_instruments_only(operator: u16) -> bool {
    matches!(operator, 0..=4 | 12 | 45 | 46 | 47 | 50 | 54 | 57 | 58)
}

/// "Totals are held to: 17 pan -500..500; 37 sustain 0..1,000; 39, 40 -1,200..1,200; 51 -120..120; 52 -99..99;
/// 56 0..1,200."
fn held(operator: u16, total: i64) -> i64 {
    match operator {
        17 => total.clamp(-500, 500),
        37 => total.clamp(0, 1_000),
        39 | 40 => total.clamp(-1_200, 1_200),
        51 => total.clamp(-120, 120),
        52 => total.clamp(-99, 99),
        56 => total.clamp(0, 1_200),
        _ => total,
    }
}

impl Layer<'_> {
    /// "A value is the instrument's local, else global, else default, plus the preset's local, else global, else 0."
    fn value(&self, operator: u16) -> i64 {
        let own = instrument_value(self.instrument, self.zone, operator);
        if in_instruments_only(operator) {
            return own;
        }
        let added =
            amount(&self.preset_zone.generators, operator).or(amount(&self.preset.global, operator)).unwrap_or(0);
        held(operator, own + added)
    }

    /// "Key is generator 46 if 0..127, else the struck key."
    fn key(&self, struck: u8) -> i64 {
        match self.value(46) {
            fixed @ 0..=127 => fixed,
            _ => struck as i64,
        }
    }

    /// "Root is generator 58 if 0..127, else the header's, else 60 where that exceeds 127."
    fn root(&self) -> i64 {
        match (self.value(58), self.sample.root) {
            (own @ 0..=127, _) => own,
            (_, header @ 0..=127) => header as i64,
            _ => 60,
        }
    }

    /// The pitch total without the bend, and not held: "(key - root)·scale + 100·coarse + fine + the header's
    /// correction".
    fn pitch(&self, struck: u8) -> i64 {
        let steps = self.key(struck) - self.root();
        let tuned = 100 * self.value(51) + self.value(52) + self.sample.correction as i64;
        steps * self.value(56) + tuned
    }

    /// "Generator 47, if 1..127, replaces v here only": in the attenuation of the velocity.
    fn velocity_attenuation(&self, tables: &Tables, struck: u8) -> i64 {
        match self.value(47) {
            fixed @ 1..=127 => tables.velocity(fixed as u8),
            _ => tables.velocity(struck),
        }
    }

    pub fn window(&self) -> Window {
        window(self.instrument, self.zone, self.sample)
    }

    /// All numbers of the voice that this layer starts, for a struck key and velocity.
    pub fn numbers(&self, tables: &Tables, key: u8, velocity: u8) -> Numbers {
        let key_part = |operator| (60 - self.key(key)) * self.value(operator);
        Numbers {
            delay: tables.frames(self.value(33), 5_000),
            attack: tables.frames(self.value(34), 8_000),
            hold: tables.frames(self.value(35) + key_part(39), 5_000),
            decay: tables.frames(self.value(36) + key_part(40), 8_000),
            release: tables.frames(self.value(38), 8_000),
            sustain: self.value(37),
            pan: self.value(17),
            class: self.value(57),
            attenuation: self.value(48) + self.velocity_attenuation(tables, velocity),
            pitch: self.pitch(key),
            rate: self.sample.rate as u64,
            window: self.window(),
        }
    }
}

/// What a layer gives its voice: frames of the stages, sustain, pan, class, the attenuation of generator 48 and the
/// velocity, the pitch total without the bend, the sample's rate and the window.
#[derive(Clone, Copy, Debug, PartialEq, Eq)]
pub struct Numbers {
    pub delay: u64,
    pub attack: u64,
    pub hold: u64,
    pub decay: u64,
    pub release: u64,
    pub sustain: i64,
    pub pan: i64,
    pub class: i64,
    pub attenuation: i64,
    pub pitch: i64,
    pub rate: u64,
    pub window: Window,
}
