//! Document 01, "Bank admission": the bytes of a bank become structures, or the fault that keeps them out.

use crate::bank::{window, Bank, Generator, Preset, Sample, SoundingZone, Window, Zones};

/// What is wrong with a bank, in the order of testing. The base answers 1 for each of them.
#[derive(Clone, Copy, Debug, PartialEq, Eq)]
pub enum Kind {
    TooLong,
    Chunk,
    Records,
    Index,
    Number,
    Rate,
    Window,
}

impl Kind {
    /// The number that request M-102 gives the kind: 21 to 27, in the order of testing.
    pub fn number(self) -> u8 {
        21 + self as u8
    }
}

/// A fault and the byte place of the record at fault.
#[derive(Clone, Copy, Debug, PartialEq, Eq)]
pub struct Fault {
    pub kind: Kind,
    pub place: usize,
}

fn fault<T>(kind: Kind, place: usize) -> Result<T, Fault> {
    Err(Fault { kind, place })
}

/// Admission: each rule in turn over the whole bank.
pub fn admit(bytes: &[u8]) -> Result<Bank, Fault> {
    if bytes.len() > 65_536 {
        return fault(Kind::TooLong, 65_536);
    }
    let chunks = nine_chunks(bytes)?;
    test_records(&chunks)?;
    test_indexes(&chunks)?;
    let bank = Bank { presets: presets(&chunks), instruments: instruments(&chunks), samples: samples(&chunks) };
    test_numbers(&bank)?;
    test_rates(&bank)?;
    test_windows(&bank)?;
    Ok(bank)
}

// Chunks and records

const PHDR: usize = 0;
const PBAG: usize = 1;
const PMOD: usize = 2;
const PGEN: usize = 3;
const INST: usize = 4;
const IBAG: usize = 5;
const IMOD: usize = 6;
const IGEN: usize = 7;
const SHDR: usize = 8;

/// Of each chunk: its name, the size of its records, and how many it has at least.
const SHAPES: [(&[u8; 4], usize, usize); 9] = [
    (b"phdr", 38, 2),
    (b"pbag", 4, 1),
    (b"pmod", 10, 1),
    (b"pgen", 4, 1),
    (b"inst", 22, 2),
    (b"ibag", 4, 1),
    (b"imod", 10, 1),
    (b"igen", 4, 1),
    (b"shdr", 46, 2),
];

/// A chunk: its number, the place of its name, and its body.
struct Chunk<'a> {
    number: usize,
    place: usize,
    body: &'a [u8],
}

/// One record: its place in the bank and its bytes.
struct Record<'a> {
    place: usize,
    bytes: &'a [u8],
}

impl Record<'_> {
    fn u16_at(&self, at: usize) -> u16 {
        u16::from_le_bytes([self.bytes[at], self.bytes[at + 1]])
    }

    fn u32_at(&self, at: usize) -> u32 {
        self.u16_at(at) as u32 | (self.u16_at(at + 2) as u32) << 16
    }
}

impl<'a> Chunk<'a> {
    fn record_size(&self) -> usize {
        SHAPES[self.number].1
    }

    /// All records, the terminal one too.
    fn records(&self) -> Vec<Record<'a>> {
        let size = self.record_size();
        let body_place = self.place + 8;
        let pieces = self.body.chunks_exact(size).enumerate();
        pieces.map(|(i, bytes)| Record { place: body_place + i * size, bytes }).collect()
    }

    /// The number of the terminal record.
    fn terminal(&self) -> usize {
        self.body.len() / self.record_size() - 1
    }
}

/// "Nine sub-chunks in this order, each a four-letter name, a 32-bit size and a body, with nothing missing or left over."
fn nine_chunks(bytes: &[u8]) -> Result<Vec<Chunk<'_>>, Fault> {
    let mut chunks = Vec::new();
    let mut place = 0;
    for (number, (name, _, _)) in SHAPES.iter().enumerate() {
        let rest = &bytes[place..];
        if rest.len() < 8 || &rest[..4] != *name {
            return fault(Kind::Chunk, place);
        }
        let size = u32::from_le_bytes([rest[4], rest[5], rest[6], rest[7]]) as usize;
        if size > rest.len() - 8 {
            return fault(Kind::Chunk, place);
        }
        let body = &rest[8..8 + size];
        chunks.push(Chunk { number, place, body });
        place += 8 + size;
    }
    if place < bytes.len() {
        return fault(Kind::Chunk, place);
    }
    Ok(chunks)
}

/// "Sizes are whole multiples; phdr, inst and shdr have two records or more, the others one."
fn test_records(chunks: &[Chunk]) -> Result<(), Fault> {
    for chunk in chunks {
        let (_, size, least) = SHAPES[chunk.number];
        if chunk.body.len() % size != 0 || chunk.body.len() / size < least {
            return fault(Kind::Records, chunk.place);
        }
    }
    Ok(())
}

/// "Bag indexes never fall along phdr (and inst), and the terminal one names the last bag; the same for a bag's
/// generator and modulator indexes." Among several faults the one at the smallest place is told.
fn test_indexes(chunks: &[Chunk]) -> Result<(), Fault> {
    let lists =
        [(PHDR, 24, PBAG), (PBAG, 0, PGEN), (PBAG, 2, PMOD), (INST, 20, IBAG), (IBAG, 0, IGEN), (IBAG, 2, IMOD)];
    let faults = lists.map(|(from, at, to)| index_fault(&chunks[from], at, chunks[to].terminal()));
    match faults.iter().flatten().min() {
        Some(&place) => fault(Kind::Index, place),
        None => Ok(()),
    }
}

/// The first record whose index (the field at `at`) falls, or the terminal one if its index is not `last`.
fn index_fault(chunk: &Chunk, at: usize, last: usize) -> Option<usize> {
    let records = chunk.records();
    for pair in records.windows(2) {
        if pair[1].u16_at(at) < pair[0].u16_at(at) {
            return Some(pair[1].place);
        }
    }
    let terminal = &records[chunk.terminal()];
    (terminal.u16_at(at) as usize != last).then_some(terminal.place)
}

// Zones

/// A zone as stored: the generators in front of the first 41 (53), and that one's number and place if there is one.
struct StoredZone {
    generators: Vec<Generator>,
    end: Option<(usize, usize)>,
}

/// The zones from one bag index up to another. `last` is 41 or 53, the generator that makes a zone sound.
fn zones(chunks: &[Chunk], bags: usize, from: u16, to: u16, last: u16) -> Zones {
    let bag_records = chunks[bags].records();
    let generators = chunks[bags + 2].records();
    let mut stored = Vec::new();
    for bag in from as usize..to as usize {
        let first = bag_records[bag].u16_at(0) as usize;
        let behind = bag_records[bag + 1].u16_at(0) as usize;
        stored.push(stored_zone(&generators[first..behind], last));
    }
    sort_zones(stored)
}

/// "Generators behind the first such are ignored."
fn stored_zone(records: &[Record], last: u16) -> StoredZone {
    let mut generators = Vec::new();
    for record in records {
        let generator = Generator { operator: record.u16_at(0), amount: record.u16_at(2) };
        if generator.operator == last {
            let end = Some((generator.amount as usize, record.place));
            return StoredZone { generators, end };
        }
        generators.push(generator);
    }
    StoredZone { generators, end: None }
}

/// "The first of two or more zones, if not sounding, is global. Every other zone without one is ignored."
fn sort_zones(stored: Vec<StoredZone>) -> Zones {
    let mut zones = Zones { global: Vec::new(), sounding: Vec::new() };
    let several = stored.len() >= 2;
    for (i, zone) in stored.into_iter().enumerate() {
        if let Some((number, place)) = zone.end {
            zones.sounding.push(SoundingZone { generators: zone.generators, number, place });
        } else if i == 0 && several {
            zones.global = zone.generators;
        }
    }
    zones
}

fn presets(chunks: &[Chunk]) -> Vec<Preset> {
    let heads = chunks[PHDR].records();
    let preset = |pair: &[Record]| Preset {
        program: pair[0].u16_at(20),
        bank: pair[0].u16_at(22),
        zones: zones(chunks, PBAG, pair[0].u16_at(24), pair[1].u16_at(24), 41),
    };
    heads.windows(2).map(preset).collect()
}

fn instruments(chunks: &[Chunk]) -> Vec<Zones> {
    let heads = chunks[INST].records();
    let instrument = |pair: &[Record]| zones(chunks, IBAG, pair[0].u16_at(20), pair[1].u16_at(20), 53);
    heads.windows(2).map(instrument).collect()
}

fn samples(chunks: &[Chunk]) -> Vec<Sample> {
    let mut records = chunks[SHDR].records();
    records.pop();
    let sample = |record: &Record| Sample {
        start: record.u32_at(20) as i64,
        end: record.u32_at(24) as i64,
        loop_start: record.u32_at(28) as i64,
        loop_end: record.u32_at(32) as i64,
        rate: record.u32_at(36),
        root: record.bytes[40],
        correction: record.bytes[41] as i8,
        rom: record.u16_at(44) & 0x8000 != 0,
        place: record.place,
    };
    records.iter().map(sample).collect()
}

// What zones name

/// "The first 41 of a preset zone is below the inst terminal's number, the first 53 of an instrument zone below the
/// shdr terminal's." Presets stand in front of instruments in the file.
fn test_numbers(bank: &Bank) -> Result<(), Fault> {
    for preset in &bank.presets {
        test_numbers_of(&preset.zones, bank.instruments.len())?;
    }
    for instrument in &bank.instruments {
        test_numbers_of(instrument, bank.samples.len())?;
    }
    Ok(())
}

fn test_numbers_of(zones: &Zones, terminal: usize) -> Result<(), Fault> {
    for zone in &zones.sounding {
        if zone.number >= terminal {
            return fault(Kind::Number, zone.place);
        }
    }
    Ok(())
}

/// "For every sounding instrument zone: sample rate 400..50,000."
fn test_rates(bank: &Bank) -> Result<(), Fault> {
    let mut faults = Vec::new();
    for zone in bank.instruments.iter().flat_map(|i| &i.sounding) {
        let sample = &bank.samples[zone.number];
        if !(400..=50_000).contains(&sample.rate) {
            faults.push(sample.place);
        }
    }
    match faults.iter().min() {
        Some(&place) => fault(Kind::Rate, place),
        None => Ok(()),
    }
}

/// "0 <= start < end < 2^32, and for modes 1 and 3 also start <= loop start < loop end <= end."
fn window_is_good(w: &Window) -> bool {
    let part = 0 <= w.start && w.start < w.end && w.end < 1 << 32;
    let within = w.start <= w.loop_start && w.loop_start < w.loop_end && w.loop_end <= w.end;
    part && (w.mode == 0 || within)
}

fn test_windows(bank: &Bank) -> Result<(), Fault> {
    for instrument in &bank.instruments {
        for zone in &instrument.sounding {
            let sample = &bank.samples[zone.number];
            if !window_is_good(&window(instrument, zone, sample)) {
                return fault(Kind::Window, zone.place);
            }
        }
    }
    Ok(())
}

/// The listing reader's plain step: program, bank and the next place, or nothing at or past the terminal's place.
pub fn list(bank: &Bank, place: u32) -> Option<(u16, u16, u32)> {
    let preset = bank.presets.get(place as usize)?;
    Some((preset.program, preset.bank, place + 1))
}
