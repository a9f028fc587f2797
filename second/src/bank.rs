//! A bank as structures, for admission and for note-on alike: presets, instruments, zones, generators and samples, the
//! value of a generator on the instrument's side, and the window of a sounding zone.

/// An admitted bank, without its terminal records.
pub struct Bank {
    pub presets: Vec<Preset>,
    pub instruments: Vec<Zones>,
    pub samples: Vec<Sample>,
}

pub struct Preset {
    pub program: u16,
    pub bank: u16,
    pub zones: Zones,
}

/// The zones of a preset or an instrument; those that are ignored are left out here.
pub struct Zones {
    /// The generators of the global zone, if there is one.
    pub global: Vec<Generator>,
    pub sounding: Vec<SoundingZone>,
}

/// A zone with generator 41 (53): the generators in front of the first such, and the number that it gives.
pub struct SoundingZone {
    pub generators: Vec<Generator>,
    pub number: usize,
    /// The byte place of that generator's record.
    pub place: usize,
}

#[derive(Clone, Copy)]
pub struct Generator {
    pub operator: u16,
    pub amount: u16,
}

pub struct Sample {
    pub start: i64,
    pub end: i64,
    pub loop_start: i64,
    pub loop_end: i64,
    pub rate: u32,
    pub root: u8,
    pub correction: i8,
    pub rom: bool,
    /// The byte place of the header.
    pub place: usize,
}

// Values

/// "A repeated generator: the later counts." Amounts are signed.
pub fn amount(generators: &[Generator], operator: u16) -> Option<i64> {
    let found = generators.iter().rev().find(|g| g.operator == operator)?;
    Some(found.amount as i16 as i64)
}

/// "Generators 33 to 36 and 38 default to -12,000, 46 and 58 to -1, others to 0"; 56 to 100.
fn default_value(operator: u16) -> i64 {
    match operator {
        33..=36 | 38 => -12_000,
        46 | 58 => -1,
        56 => 100,
        _ => 0,
    }
}

/// The instrument's part of a value: local, else global, else default.
pub fn instrument_value(instrument: &Zones, zone: &SoundingZone, operator: u16) -> i64 {
    amount(&zone.generators, operator).or(amount(&instrument.global, operator)).unwrap_or(default_value(operator))
}

// Windows

/// A part of one of the two sample memories, and the loop in it; all places count from the memory's start.
#[derive(Clone, Copy, Debug, PartialEq, Eq)]
pub struct Window {
    pub rom: bool,
    pub start: i64,
    pub end: i64,
    pub loop_start: i64,
    pub loop_end: i64,
    /// 0, 1 or 3.
    pub mode: i64,
}

/// "Header places plus generators 0, 1, 2, 3 plus 32,768 times 4, 12, 45, 50 (start, end, loop start, loop end)."
/// "Mode is generator 54 modulo 4; mode 2 counts as 0. Header type bit 15 says ROM."
pub fn window(instrument: &Zones, zone: &SoundingZone, sample: &Sample) -> Window {
    let value = |generator| instrument_value(instrument, zone, generator);
    let mode = value(54).rem_euclid(4);
    Window {
        rom: sample.rom,
        start: sample.start + value(0) + 32_768 * value(4),
        end: sample.end + value(1) + 32_768 * value(12),
        loop_start: sample.loop_start + value(2) + 32_768 * value(45),
        loop_end: sample.loop_end + value(3) + 32_768 * value(50),
        mode: if mode == 2 { 0 } else { mode },
    }
}
