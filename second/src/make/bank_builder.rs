//! Builds the bytes of banks from plans, and lets single bytes of them be changed.

/// A generator: operator and amount, of which the low 16 bits are stored.
pub type Gen = (u16, i32);

#[derive(Clone)]
pub struct ZonePlan {
    pub gens: Vec<Gen>,
    pub mods: usize,
}

/// A zone of these generators, without modulators.
pub fn zone(gens: &[Gen]) -> ZonePlan {
    ZonePlan { gens: gens.to_vec(), mods: 0 }
}

/// A zone with these generators and behind them 41 or 53 with a number.
pub fn zone_to(gens: &[Gen], last: u16, number: i32) -> ZonePlan {
    let mut plan = zone(gens);
    plan.gens.push((last, number));
    plan
}

#[derive(Clone)]
pub struct PresetPlan {
    pub program: u16,
    pub bank: u16,
    pub zones: Vec<ZonePlan>,
}

#[derive(Clone, Copy)]
pub struct SamplePlan {
    pub start: u32,
    pub end: u32,
    pub loop_start: u32,
    pub loop_end: u32,
    pub rate: u32,
    pub root: u8,
    pub correction: i8,
    pub link: u16,
    pub kind: u16,
}

/// A mono sample in RAM of rate 44,100 and root 60, its loop the whole window.
pub fn sample(start: u32, end: u32) -> SamplePlan {
    SamplePlan { start, end, loop_start: start, loop_end: end, rate: 44_100, root: 60, correction: 0, link: 0, kind: 1 }
}

#[derive(Clone, Default)]
pub struct BankPlan {
    pub presets: Vec<PresetPlan>,
    pub instruments: Vec<Vec<ZonePlan>>,
    pub samples: Vec<SamplePlan>,
}

/// The chunks of a bank, open to any change before they become bytes.
#[derive(Clone)]
pub struct RawBank {
    pub chunks: Vec<RawChunk>,
    pub behind: Vec<u8>,
}

#[derive(Clone)]
pub struct RawChunk {
    pub name: [u8; 4],
    pub record: usize,
    pub body: Vec<u8>,
    /// Added to the size that is written.
    pub size_error: i64,
}

pub const PHDR: usize = 0;
pub const PBAG: usize = 1;
pub const PMOD: usize = 2;
pub const PGEN: usize = 3;
pub const INST: usize = 4;
pub const IBAG: usize = 5;
pub const IMOD: usize = 6;
pub const IGEN: usize = 7;
pub const SHDR: usize = 8;

const SHAPES: [(&[u8; 4], usize); 9] = [
    (b"phdr", 38),
    (b"pbag", 4),
    (b"pmod", 10),
    (b"pgen", 4),
    (b"inst", 22),
    (b"ibag", 4),
    (b"imod", 10),
    (b"igen", 4),
    (b"shdr", 46),
];

impl RawBank {
    fn empty() -> RawBank {
        let chunk =
            |(name, record): (&[u8; 4], usize)| RawChunk { name: *name, record, body: Vec::new(), size_error: 0 };
        RawBank { chunks: SHAPES.map(chunk).to_vec(), behind: Vec::new() }
    }

    /// How many records a chunk has.
    pub fn count(&self, chunk: usize) -> usize {
        self.chunks[chunk].body.len() / self.chunks[chunk].record
    }

    /// Sets the 16 bits at an offset in a record.
    pub fn set(&mut self, chunk: usize, record: usize, offset: usize, value: u16) {
        let c = &mut self.chunks[chunk];
        let at = record * c.record + offset;
        c.body[at..at + 2].copy_from_slice(&value.to_le_bytes());
    }

    pub fn get(&self, chunk: usize, record: usize, offset: usize) -> u16 {
        let c = &self.chunks[chunk];
        let at = record * c.record + offset;
        u16::from_le_bytes([c.body[at], c.body[at + 1]])
    }

    pub fn set_wide(&mut self, chunk: usize, record: usize, offset: usize, value: u32) {
        self.set(chunk, record, offset, value as u16);
        self.set(chunk, record, offset + 2, (value >> 16) as u16);
    }

    pub fn bytes(&self) -> Vec<u8> {
        let mut bytes = Vec::new();
        for chunk in &self.chunks {
            let size = (chunk.body.len() as i64 + chunk.size_error) as u32;
            bytes.extend_from_slice(&chunk.name);
            bytes.extend_from_slice(&size.to_le_bytes());
            bytes.extend_from_slice(&chunk.body);
        }
        bytes.extend_from_slice(&self.behind);
        bytes
    }

    /// Appends a record of words to a chunk: a name of twenty bytes where asked for, then the fields.
    fn push(&mut self, chunk: usize, name: Option<&str>, fields: &[u8]) {
        let body = &mut self.chunks[chunk].body;
        if let Some(name) = name {
            let mut padded = name.as_bytes().to_vec();
            padded.resize(20, 0);
            body.extend_from_slice(&padded);
        }
        body.extend_from_slice(fields);
    }

    /// Appends zones of one side; `bags` is the chunk of its bags, with modulators and generators behind it.
    fn push_zones(&mut self, bags: usize, zones: &[ZonePlan]) {
        for zone in zones {
            self.push_bag(bags);
            for i in 0..zone.mods {
                self.push(bags + 1, None, &[i as u8 + 1; 10]);
            }
            for &(operator, amount) in &zone.gens {
                let fields = [operator.to_le_bytes(), (amount as u16).to_le_bytes()];
                self.push(bags + 2, None, &fields.concat());
            }
        }
    }

    fn push_bag(&mut self, bags: usize) {
        let generators = self.count(bags + 2) as u16;
        let modulators = self.count(bags + 1) as u16;
        let fields = [generators.to_le_bytes(), modulators.to_le_bytes()];
        self.push(bags, None, &fields.concat());
    }

    /// The terminal bag, modulator and generator of one side.
    fn push_terminals(&mut self, bags: usize) {
        self.push_bag(bags);
        self.push(bags + 1, None, &[0; 10]);
        self.push(bags + 2, None, &[0; 4]);
    }

    fn push_sample(&mut self, name: &str, s: &SamplePlan) {
        let places = [s.start, s.end, s.loop_start, s.loop_end, s.rate];
        let mut fields: Vec<u8> = places.iter().flat_map(|p| p.to_le_bytes()).collect();
        fields.push(s.root);
        fields.push(s.correction as u8);
        fields.extend_from_slice(&s.link.to_le_bytes());
        fields.extend_from_slice(&s.kind.to_le_bytes());
        self.push(SHDR, Some(name), &fields);
    }

    fn push_preset(&mut self, name: &str, program: u16, bank: u16) {
        let bag = self.count(PBAG) as u16;
        let mut fields = [program, bank, bag].map(u16::to_le_bytes).concat();
        fields.extend_from_slice(&[0; 12]);
        self.push(PHDR, Some(name), &fields);
    }
}

impl BankPlan {
    pub fn raw(&self) -> RawBank {
        let mut raw = RawBank::empty();
        for (i, preset) in self.presets.iter().enumerate() {
            raw.push_preset(&format!("p{i}"), preset.program, preset.bank);
            raw.push_zones(PBAG, &preset.zones);
        }
        raw.push_preset("EOP", 0, 0);
        raw.push_terminals(PBAG);
        for (i, zones) in self.instruments.iter().enumerate() {
            let bag = (raw.count(IBAG) as u16).to_le_bytes();
            raw.push(INST, Some(&format!("i{i}")), &bag);
            raw.push_zones(IBAG, zones);
        }
        let bag = (raw.count(IBAG) as u16).to_le_bytes();
        raw.push(INST, Some("EOI"), &bag);
        raw.push_terminals(IBAG);
        for (i, plan) in self.samples.iter().enumerate() {
            raw.push_sample(&format!("s{i}"), plan);
        }
        let terminal = SamplePlan { rate: 0, ..sample(0, 0) };
        raw.push_sample("EOS", &terminal);
        raw
    }

    pub fn bytes(&self) -> Vec<u8> {
        self.raw().bytes()
    }

    /// Adds a preset whose one zone has these generators and one instrument with the zones given.
    pub fn strike_plan(&mut self, program: u16, preset: &[Gen], zones: Vec<ZonePlan>) {
        let number = self.instruments.len() as i32;
        self.instruments.push(zones);
        self.presets.push(PresetPlan { program, bank: 0, zones: vec![zone_to(preset, 41, number)] });
    }
}

/// Times of no frames for delay, attack, hold and decay, so that a voice is at its sustain value with its first frame.
pub const QUICK: [Gen; 4] = [(33, -32_768), (34, -32_768), (35, -32_768), (36, -32_768)];

/// QUICK and more generators behind it.
pub fn quick(more: &[Gen]) -> Vec<Gen> {
    [&QUICK, more].concat()
}

/// A bank of one preset (bank 0, program 0), one instrument with one zone, one sample.
pub fn one_zone(gens: &[Gen], plan: SamplePlan) -> BankPlan {
    let mut bank = BankPlan { samples: vec![plan], ..BankPlan::default() };
    bank.strike_plan(0, &[], vec![zone_to(gens, 53, 0)]);
    bank
}
