//! A SoundFont file as it is lent to the engine: the bank in it, and its samples.

use crate::output::{self, name_of};
use crate::records;
use crate::stop::{grouped, Stop};
use crate::thularek;
use std::ops::Range;
use std::path::Path;

/// RIFF counts in 32 bits: no SoundFont file is longer.
const LONGEST: u64 = 4_294_967_303;

/// A file of which the first bytes are no SoundFont's is not read to its end.
const NO_FORM: u32 = 40;

/// The kind of a bank that is too long; its place says nothing more.
const TOO_LONG: u32 = 1;

pub struct Font {
    pub name: String,
    file: Vec<u8>,
    bank: Range<usize>,
    samples: Range<usize>,
    /// The samples, where they do not lie in the file as numbers do in memory.
    copied: Option<Vec<i16>>,
}

impl Font {
    /// Reads a file whose bank the engine admits.
    pub fn open(path: &Path) -> Result<Font, Stop> {
        Font::read(path)?.admitted()
    }

    /// Reads a file, whatever its bank is.
    pub fn read(path: &Path) -> Result<Font, Stop> {
        let name = name_of(path);
        let glance = |front: &[u8]| match thularek::font(front) {
            Err((NO_FORM, place)) => Err(fault(&name, NO_FORM, place)),
            _ => Ok(()),
        };
        let file = output::read(path, LONGEST, glance)?;
        if file.len() as u64 > LONGEST {
            return Err(Stop::of(&name, &format!("longer than a SoundFont file can be, {} bytes", grouped(LONGEST))));
        }
        Font::of(name.clone(), file)
    }

    pub fn of(name: String, file: Vec<u8>) -> Result<Font, Stop> {
        let (bank, samples) = thularek::font(&file).map_err(|(number, place)| fault(&name, number, place))?;
        let mut font = Font { name, file, bank, samples, copied: None };
        if font.in_place().is_none() {
            let bytes = &font.file[font.samples.clone()];
            font.copied = Some(bytes.chunks_exact(2).map(|two| i16::from_le_bytes([two[0], two[1]])).collect());
        }
        Ok(font)
    }

    pub fn bank(&self) -> &[u8] {
        &self.file[self.bank.clone()]
    }

    /// The sample memory.
    pub fn ram(&self) -> &[i16] {
        match &self.copied {
            Some(copied) => copied,
            None => self.in_place().unwrap_or(&[]),
        }
    }

    /// The samples as they lie, where they begin at an even place in memory and low bytes come first.
    fn in_place(&self) -> Option<&[i16]> {
        // SAFETY: any two bytes are a sample.
        let (before, samples, _) = unsafe { self.file[self.samples.clone()].align_to::<i16>() };
        (before.is_empty() && cfg!(target_endian = "little")).then_some(samples)
    }

    /// The font, where its bank is admitted; else what is wrong with the bank, at which byte of the file, in which record.
    pub fn admitted(self) -> Result<Font, Stop> {
        match thularek::bank_fault(self.bank()) {
            (0, _) => Ok(self),
            (TOO_LONG, _) => {
                let size = grouped(self.bank().len() as u64);
                Err(Stop::of(&self.name, &format!("{} (it has {size})", thularek::message(20 + TOO_LONG))))
            }
            (kind, place) => Err(self.fault_at(thularek::message(20 + kind), place)),
        }
    }

    /// The first sample that a zone of the bank reads past the end of the file's samples.
    pub fn samples_there(&self) -> Result<(), Stop> {
        match thularek::past_memory(self.bank(), self.ram().len(), 0) {
            (0, _) => Ok(()),
            (_, place) => Err(self.fault_at("window past the sample memory", place)),
        }
    }

    fn fault_at(&self, words: &str, place: usize) -> Stop {
        let byte = grouped((self.bank.start + place) as u64);
        let record = records::at(self.bank(), place).map_or(String::new(), |record| format!(" ({record})"));
        Stop::of(&self.name, &format!("{words}, byte {byte}{record}"))
    }

    /// The presets, in the file's order.
    pub fn presets(&self) -> Presets<'_> {
        Presets { bank: self.bank(), place: 0 }
    }
}

fn fault(name: &str, number: u32, place: usize) -> Stop {
    Stop::of(name, &format!("{}, byte {}", thularek::message(number), grouped(place as u64)))
}

/// A preset of a bank. Its keys are from `low` to `high`; it has none where `high` is below `low`.
pub struct Preset {
    pub bank: u16,
    pub program: u16,
    pub name: String,
    pub zones: u32,
    pub low: u8,
    pub high: u8,
}

/// Goes through the presets of a bank.
pub struct Presets<'a> {
    bank: &'a [u8],
    place: u32,
}

impl Iterator for Presets<'_> {
    type Item = Preset;

    fn next(&mut self) -> Option<Preset> {
        let (0, program, bank, next) = thularek::list(self.bank, self.place) else { return None };
        let (_, name, zones, low, high) = thularek::preset(self.bank, self.place);
        self.place = u32::try_from(next).ok()?;
        Some(Preset { bank, program, name: records::name_at(self.bank, name), zones, low, high })
    }
}
