//! The bank: the sounds of the castings in one sample memory, and the presets, instruments and sample headers over it.

use super::castings::{Casting, CASTINGS};
use super::sines::Sines;
use super::sounds;

/// Zeros behind each sample.
const SILENCE: usize = 46;

/// A time of no frames, in timecents.
const NONE: i32 = -32_768;

/// What the header of each sample corrects, in cents.
const CORRECTION: i8 = -8;

/// A generator: its number and its amount.
type Generator = (u16, i32);
type Zone = Vec<Generator>;

/// A sample as it was cast; where its loop begins and ends, from its own front.
pub struct Sound {
    pub name: String,
    pub samples: Vec<i16>,
    pub looped: (usize, usize),
    rate: u32,
    root: u8,
}

/// The sounds of the castings, lowest first, each casting's strike and then its hum.
pub struct Carillon {
    pub sounds: Vec<Sound>,
}

impl Carillon {
    pub fn cast() -> Carillon {
        let sines = Sines::new();
        Carillon { sounds: CASTINGS.iter().flat_map(|casting| sounds_of(&sines, casting)).collect() }
    }

    /// The sample memory: the sounds one behind the other.
    pub fn memory(&self) -> Vec<i16> {
        self.sounds.iter().flat_map(|sound| [sound.samples.as_slice(), &[0; SILENCE]].concat()).collect()
    }

    /// The body of the pdta list.
    pub fn pdta(&self) -> Vec<u8> {
        let presets = [carillon_zones(), slow_zones()];
        let instruments = [strike_zones(), hum_zones()];
        let (over, under) = (Bags::of(&presets), Bags::of(&instruments));
        [
            chunk(b"phdr", &preset_headers(&over.firsts)),
            chunk(b"pbag", &over.bags),
            chunk(b"pmod", &[0; 10]),
            chunk(b"pgen", &over.generators),
            chunk(b"inst", &instrument_headers(&under.firsts)),
            chunk(b"ibag", &under.bags),
            chunk(b"imod", &[0; 10]),
            chunk(b"igen", &under.generators),
            chunk(b"shdr", &self.sample_headers()),
        ]
        .concat()
    }

    fn sample_headers(&self) -> Vec<u8> {
        let (mut headers, mut start) = (Vec::new(), 0);
        for sound in &self.sounds {
            let places = [0, sound.samples.len(), sound.looped.0, sound.looped.1];
            headers.extend(name_of_twenty(&sound.name));
            headers.extend(places.iter().flat_map(|place| ((start + place) as u32).to_le_bytes()));
            headers.extend(sound.rate.to_le_bytes());
            headers.extend([sound.root, CORRECTION as u8, 0, 0, 1, 0]);
            start += sound.samples.len() + SILENCE;
        }
        headers.extend(name_of_twenty("EOS"));
        headers.extend([0; 26]);
        headers
    }

    /// The SoundFont file.
    pub fn file(&self) -> Vec<u8> {
        let samples: Vec<u8> = self.memory().iter().flat_map(|sample| sample.to_le_bytes()).collect();
        let about = [chunk(b"ifil", &[2, 0, 1, 0]), chunk(b"isng", b"EMU8000\0"), chunk(b"INAM", b"Bells\0")].concat();
        let lists = [list(b"INFO", &about), list(b"sdta", &chunk(b"smpl", &samples)), list(b"pdta", &self.pdta())];
        chunk(b"RIFF", &[b"sfbk".as_slice(), &lists.concat()].concat())
    }
}

/// A casting's strike, which is not looped, and its hum, whose loop stands behind its rise.
fn sounds_of(sines: &Sines, casting: &Casting) -> [Sound; 2] {
    let rise = sounds::hum_rise(casting);
    let sound = |name: &str, samples: Vec<i16>, looped| Sound {
        name: format!("{name} {}", casting.name),
        samples,
        looped,
        rate: casting.rate,
        root: casting.root,
    };
    [
        sound("Strike", sounds::strike(sines, casting), (0, casting.strike_length)),
        sound("Hum", sounds::hum(sines, casting), (rise, rise + casting.loop_length)),
    ]
}

// Zones

/// Generator 43 for the keys from one to another.
fn keys(lowest: u8, highest: u8) -> Generator {
    (43, i32::from(highest) << 8 | i32::from(lowest))
}

/// Where a bell stands, in 1/1,000: heavy bells left, small ones right, the biggest in the middle.
fn pan(key: u8) -> i32 {
    if key == CASTINGS[0].lowest {
        return 0;
    }
    ((i32::from(key) - 66) * 24).clamp(-400, 400)
}

/// The carillon: for each key the strike, and the hum half as far out.
fn carillon_zones() -> Vec<Zone> {
    let key_zones = |key| {
        let side = pan(key);
        [vec![keys(key, key), (17, side), (41, 0)], vec![keys(key, key), (17, side.div_euclid(2)), (41, 1)]]
    };
    (CASTINGS[0].lowest..=CASTINGS[2].highest).flat_map(key_zones).collect()
}

/// What an octave that is not exact would give: the hum is read 5 cents too slow.
fn slow_zones() -> Vec<Zone> {
    vec![vec![(41, 0)], vec![(52, -5), (41, 1)]]
}

/// The strikes: no delay, attack or hold, a release of 2 s.
fn strike_zones() -> Vec<Zone> {
    let all = vec![(33, NONE), (34, NONE), (35, NONE), (38, 1_200)];
    let one = |(number, casting): (i32, &Casting)| {
        vec![keys(casting.lowest, casting.highest), (48, casting.strike_attenuation), (53, 2 * number)]
    };
    [all].into_iter().chain((0..).zip(&CASTINGS).map(one)).collect()
}

/// The hums: looped, an octave up, a decay to nothing that is shorter the higher the key, a release of 4 s.
fn hum_zones() -> Vec<Zone> {
    let all = vec![(33, NONE), (34, NONE), (35, NONE), (37, 1_000), (38, 2_400), (40, 100), (51, 12), (54, 1)];
    let one = |(number, casting): (i32, &Casting)| {
        let range = keys(casting.lowest, casting.highest);
        vec![range, (36, casting.decay), (48, casting.hum_attenuation), (53, 2 * number + 1)]
    };
    [all].into_iter().chain((0..).zip(&CASTINGS).map(one)).collect()
}

// Bytes

/// The zones of presets or of instruments: the first bag of each and the terminal one, the bags, the generators.
struct Bags {
    firsts: Vec<u16>,
    bags: Vec<u8>,
    generators: Vec<u8>,
}

impl Bags {
    fn of(lists: &[Vec<Zone>]) -> Bags {
        let mut all = Bags { firsts: Vec::new(), bags: Vec::new(), generators: Vec::new() };
        for zones in lists {
            all.begin();
            zones.iter().for_each(|zone| all.put(zone));
        }
        all.begin();
        all.put(&[(0, 0)]);
        all
    }

    fn begin(&mut self) {
        self.firsts.push((self.bags.len() / 4) as u16);
    }

    /// A bag, without modulators, and its generators.
    fn put(&mut self, zone: &[Generator]) {
        self.bags.extend(((self.generators.len() / 4) as u16).to_le_bytes());
        self.bags.extend([0, 0]);
        let bytes = |(number, amount): &Generator| [number.to_le_bytes(), (*amount as u16).to_le_bytes()].concat();
        self.generators.extend(zone.iter().flat_map(bytes));
    }
}

fn preset_headers(firsts: &[u16]) -> Vec<u8> {
    let header = |(name, program, first): (&str, u16, u16)| {
        let numbers = [program, 0, first].map(u16::to_le_bytes).concat();
        [name_of_twenty(name).as_slice(), &numbers, &[0; 12]].concat()
    };
    [("Carillon", 0, firsts[0]), ("Hum read slow", 1, firsts[1]), ("EOP", 0, firsts[2])].map(header).concat()
}

fn instrument_headers(firsts: &[u16]) -> Vec<u8> {
    let header = |(name, first): (&str, u16)| [name_of_twenty(name).as_slice(), &first.to_le_bytes()].concat();
    [("Strike", firsts[0]), ("Hum", firsts[1]), ("EOI", firsts[2])].map(header).concat()
}

fn name_of_twenty(name: &str) -> Vec<u8> {
    let mut bytes = name.as_bytes().to_vec();
    bytes.resize(20, 0);
    bytes
}

/// A chunk: its name, its length, its bytes, and one more where their number is odd.
fn chunk(name: &[u8; 4], body: &[u8]) -> Vec<u8> {
    let odd = body.len() % 2;
    [name.as_slice(), &(body.len() as u32).to_le_bytes(), body, &[0][..odd]].concat()
}

fn list(kind: &[u8; 4], body: &[u8]) -> Vec<u8> {
    chunk(b"LIST", &[kind.as_slice(), body].concat())
}
