//! Writes the commands of cases, and remembers every bank that they lend.

use super::bank_builder::BankPlan;

/// A bank that a case lends, and whether the case asks for its admission or listing.
#[derive(Clone)]
pub struct Lending {
    pub case: String,
    pub bytes: Vec<u8>,
    pub examined: bool,
}

#[derive(Default)]
pub struct Script {
    pub bytes: Vec<u8>,
    /// Each bank with the name of the case that lends it.
    pub banks: Vec<Lending>,
    name: String,
    clock: u32,
    programs: [u8; 16],
}

impl Script {
    fn put(&mut self, letter: u8, numbers: &[u8]) {
        self.bytes.push(letter);
        self.bytes.extend_from_slice(numbers);
    }

    fn put_long(&mut self, letter: u8, count: usize, bytes: &[u8]) {
        self.put(letter, &(count as u32).to_le_bytes());
        self.bytes.extend_from_slice(bytes);
    }

    /// The beginning of a case: its name, bank, memories and a fresh engine.
    pub fn begin(&mut self, name: &str, bank: &[u8], ram: &[i16], rom: &[i16]) {
        self.title(name);
        self.bank(bank);
        self.ram(ram);
        self.rom(rom);
        self.fresh(0);
    }

    /// The beginning of a case with a plan's bank and a RAM alone.
    pub fn begin_plan(&mut self, name: &str, bank: &BankPlan, ram: &[i16]) {
        self.begin(name, &bank.bytes(), ram, &[]);
    }

    pub fn title(&mut self, name: &str) {
        self.name = name.to_string();
        self.put(b't', &[name.len() as u8]);
        self.bytes.extend_from_slice(name.as_bytes());
    }

    pub fn bank(&mut self, bytes: &[u8]) {
        self.banks.push(Lending { case: self.name.clone(), bytes: bytes.to_vec(), examined: false });
        self.put_long(b'B', bytes.len(), bytes);
    }

    pub fn ram(&mut self, samples: &[i16]) {
        self.memory(b'M', samples);
    }

    pub fn rom(&mut self, samples: &[i16]) {
        self.memory(b'O', samples);
    }

    fn memory(&mut self, letter: u8, samples: &[i16]) {
        let bytes: Vec<u8> = samples.iter().flat_map(|s| s.to_le_bytes()).collect();
        self.put_long(letter, samples.len(), &bytes);
    }

    pub fn cut_ram(&mut self, n: u32) {
        self.put(b'm', &n.to_le_bytes());
    }

    pub fn cut_rom(&mut self, n: u32) {
        self.put(b'x', &n.to_le_bytes());
    }

    pub fn fresh(&mut self, clock: u32) {
        self.clock = clock;
        self.programs = [0; 16];
        self.put(b'F', &clock.to_le_bytes());
    }

    /// Notes that the bank now lent is one that the case examines.
    fn examine(&mut self) {
        if let Some(last) = self.banks.last_mut() {
            last.examined = true;
        }
    }

    pub fn admission(&mut self) {
        self.examine();
        self.put(b'a', &[]);
    }

    pub fn list(&mut self, place: u32) {
        self.examine();
        self.put(b'l', &place.to_le_bytes());
    }

    pub fn on(&mut self, channel: u8, key: u8, velocity: u8) {
        self.put(b'n', &[channel, key, velocity]);
    }

    pub fn off(&mut self, channel: u8, key: u8) {
        self.put(b'o', &[channel, key]);
    }

    pub fn control(&mut self, channel: u8, control: u8, value: u8) {
        self.put(b'c', &[channel, control, value]);
    }

    /// Control 120: the channel is silent.
    pub fn silence(&mut self, channel: u8) {
        self.control(channel, 120, 0);
    }

    pub fn program(&mut self, channel: u8, program: u8) {
        self.put(b'p', &[channel, program]);
        if let Some(now) = self.programs.get_mut(channel as usize) {
            *now = program;
        }
    }

    /// A program change only where the channel has another program.
    pub fn need_program(&mut self, channel: u8, program: u8) {
        if self.programs[channel as usize] != program {
            self.program(channel, program);
        }
    }

    pub fn bend(&mut self, channel: u8, value: u16) {
        let [low, high] = value.to_le_bytes();
        self.put(b'b', &[channel, low, high]);
    }

    pub fn panel(&mut self, slot: u8) {
        self.put(b's', &[slot]);
    }

    /// The reader opens the bank.
    pub fn opening(&mut self) {
        self.put(b'i', &[]);
    }

    /// What the reader gives at a place.
    pub fn row(&mut self, place: u32) {
        self.put(b'j', &place.to_le_bytes());
    }

    /// The kind and the place of the bank's fault.
    pub fn defect(&mut self) {
        self.put(b'd', &[]);
    }

    /// How many voices sound.
    pub fn in_use(&mut self) {
        self.put(b'u', &[]);
    }

    /// The voices that a struck key would start.
    pub fn hammer(&mut self, program: u8, bank: u8, key: u8, velocity: u8) {
        self.put(b'h', &[program, bank, key, velocity]);
    }

    /// A render that is done: n frames on, into an output of just as many.
    pub fn go(&mut self, n: u32) {
        self.go_into(n, 2 * n);
    }

    /// A render that is done, into an output of the length given.
    pub fn go_into(&mut self, n: u32, length: u32) {
        self.ask(n, length);
        self.clock = self.clock.wrapping_add(n);
    }

    /// n frames on, for any n, in renders of 4,096 at most.
    pub fn go_far(&mut self, n: u64) {
        let mut left = n;
        while left > 0 {
            let part = left.min(4_096);
            self.go(part as u32);
            left -= part;
        }
    }

    /// A render that is refused, so that the clock stays.
    pub fn ask(&mut self, distance: u32, length: u32) {
        self.render(b'r', distance, length);
    }

    fn render(&mut self, letter: u8, distance: u32, length: u32) {
        let target = self.clock.wrapping_add(distance);
        let numbers = [target.to_le_bytes(), length.to_le_bytes()].concat();
        self.put(letter, &numbers);
    }

    // The player

    pub fn song(&mut self, file: &[u8]) {
        self.put_long(b'L', file.len(), file);
    }

    /// The song that is lent starts.
    pub fn start(&mut self) {
        self.put(b'G', &[]);
    }

    pub fn stop(&mut self) {
        self.put(b'H', &[]);
    }

    /// Whether the song is over, and how many voices sound.
    pub fn over(&mut self) {
        self.put(b'E', &[]);
    }

    /// A render by the player that is done, as `go`.
    pub fn play(&mut self, n: u32) {
        self.play_into(n, 2 * n);
    }

    pub fn play_into(&mut self, n: u32, length: u32) {
        self.ask_player(n, length);
        self.clock = self.clock.wrapping_add(n);
    }

    /// A render by the player that is refused.
    pub fn ask_player(&mut self, distance: u32, length: u32) {
        self.render(b'V', distance, length);
    }

    /// Up to one frame in front of n frames, and then four single frames.
    pub fn around(&mut self, n: u64) {
        self.go_far(n.saturating_sub(1));
        for _ in 0..4 {
            self.go(1);
        }
    }
}

/// A sample memory of n numbers that differ from their neighbours, the ends of the 16-bit range among them.
pub fn noise(n: usize, seed: u64) -> Vec<i16> {
    let mut chance = super::chance::Chance::new(seed);
    let mut samples: Vec<i16> = (0..n).map(|_| chance.number() as i16).collect();
    for (place, value) in [(1, 32_767), (2, -32_768), (5, -1), (6, 0), (7, 1)] {
        if place < n {
            samples[place] = value;
        }
    }
    samples
}
