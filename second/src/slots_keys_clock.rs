//! Document 01, "Slots, keys and the clock": the engine's state, its operations, and the numbers they answer.

use crate::bank::{Bank, Window};
use crate::bank_admission::Fault;
use crate::key_to_layers::{find_preset, layers, Numbers};
use crate::tables_and_steps::Tables;
use crate::voice::{slot_frame, Controls, Stage, Voice};

/// The numbers of 01's table; 0, done, is `Ok` with the count.
pub const BANK_NOT_ADMITTED: u32 = 1;
pub const PAST_RANGE: u32 = 2;
pub const NO_SUCH_PRESET: u32 = 3;
pub const TOO_MANY_LAYERS: u32 = 4;
pub const TOO_FAR: u32 = 5;
pub const TOO_LONG: u32 = 6;
pub const OUTPUT_TOO_SHORT: u32 = 7;
pub const PAST_MEMORY: u32 = 8;

/// The count of a done call, or the number of the refusal. A refusal changes nothing.
pub type Answer = Result<u32, u32>;

/// What is lent to a call: the bank (as admission found it), and the two sample memories.
pub struct Lent<'a> {
    pub bank: &'a Result<Bank, Fault>,
    pub ram: &'a [i16],
    pub rom: &'a [i16],
}

impl Lent<'_> {
    fn memory(&self, rom: bool) -> &[i16] {
        if rom {
            self.rom
        } else {
            self.ram
        }
    }

    fn ends_past(&self, window: &Window) -> bool {
        window.end > self.memory(window.rom).len() as i64
    }
}

#[derive(Clone, Debug, PartialEq, Eq)]
pub struct Channel {
    pub program: u8,
    /// The bank that the last program change took, and the one that control 0 stored for the next.
    pub bank: u8,
    pub stored_bank: u8,
    pub bend: u16,
    pub volume: u8,
    pub expression: u8,
    pub pedal: u8,
}

impl Channel {
    /// "Fresh: clock 0, program and bank 0, bend 8,192, control 7 at 100, 11 at 127, 64 at 0."
    pub fn fresh() -> Channel {
        Channel { program: 0, bank: 0, stored_bank: 0, bend: 8_192, volume: 100, expression: 127, pedal: 0 }
    }
}

#[derive(Clone, Debug, PartialEq, Eq)]
pub struct Engine {
    pub slots: Vec<Option<Voice>>,
    pub channels: Vec<Channel>,
    pub clock: u32,
    /// How many voices were started so far, without end: the age of the next.
    pub started: u64,
}

impl Engine {
    /// No slot sounds, and each channel is fresh. A case may name the clock.
    pub fn fresh(clock: u32) -> Engine {
        Engine { slots: vec![None; 32], channels: vec![Channel::fresh(); 16], clock, started: 0 }
    }

    /// "Which slots sound is one 32-bit word, a bit for each slot."
    pub fn word(&self) -> u32 {
        let bits = self.slots.iter().enumerate();
        bits.map(|(slot, voice)| u32::from(voice.is_some()) << slot).sum()
    }

    fn voices(&mut self) -> impl Iterator<Item = &mut Voice> {
        self.slots.iter_mut().flatten()
    }

    fn free_where(&mut self, freed: impl Fn(&Voice) -> bool) {
        for slot in &mut self.slots {
            if slot.as_ref().is_some_and(&freed) {
                *slot = None;
            }
        }
    }

    // Note-on

    /// The tests come in the table's order. "Velocity 0, once the ranges are tested, is a note-off and needs no bank."
    pub fn note_on(&mut self, tables: &Tables, lent: &Lent, channel: u8, key: u8, velocity: u8) -> Answer {
        if channel > 15 || key > 127 || velocity > 127 {
            return Err(PAST_RANGE);
        }
        if velocity == 0 {
            return self.note_off(tables, channel, key);
        }
        let started = self.layers_to_start(tables, lent, channel, key, velocity)?;
        self.strike(channel, key, velocity, &started);
        Ok(started.len() as u32)
    }

    /// The strike itself, once nothing refuses it: classes are cut, and each layer starts in a slot.
    pub fn strike(&mut self, channel: u8, key: u8, velocity: u8, started: &[Numbers]) {
        self.cut_classes(channel, started);
        let first_of_this_note = self.started;
        for numbers in started {
            self.start(channel, key, velocity, *numbers, first_of_this_note);
        }
    }

    /// The layers of a strike, or the refusal: 1, 3, 4, 8 in this order.
    fn layers_to_start(
        &self,
        tables: &Tables,
        lent: &Lent,
        channel: u8,
        key: u8,
        velocity: u8,
    ) -> Result<Vec<Numbers>, u32> {
        let bank = lent.bank.as_ref().map_err(|_| BANK_NOT_ADMITTED)?;
        let state = &self.channels[channel as usize];
        // "Channel 9 always uses bank 128."
        let bank_number = if channel == 9 { 128 } else { state.bank as u16 };
        let preset = find_preset(bank, bank_number, state.program as u16).ok_or(NO_SUCH_PRESET)?;
        let found = layers(bank, preset, key, velocity);
        if found.len() >= 33 {
            return Err(TOO_MANY_LAYERS);
        }
        if found.iter().any(|layer| lent.ends_past(&layer.window())) {
            return Err(PAST_MEMORY);
        }
        let numbers = found.iter().map(|l| l.numbers(tables, key, velocity));
        Ok(numbers.collect())
    }

    /// "A note-on first frees voices of its channel that have the same nonzero class (57) as one of its layers."
    fn cut_classes(&mut self, channel: u8, started: &[Numbers]) {
        self.free_where(|voice| {
            let class = voice.numbers.class;
            voice.channel == channel && class != 0 && started.iter().any(|n| n.class == class)
        });
    }

    /// "Layers then take the lowest free slots. When none is left, they take: released voices first, then lower struck
    /// velocity, then older; never one of the same note-on."
    fn slot_for(&self, first_of_this_note: u64) -> usize {
        if let Some(free) = self.slots.iter().position(Option::is_none) {
            return free;
        }
        let others = self.slots.iter().enumerate().filter_map(|(slot, voice)| {
            let voice = voice.as_ref()?;
            let order = (!voice.released(), voice.velocity, voice.age);
            (voice.age < first_of_this_note).then_some((order, slot))
        });
        let (_, slot) = others.min().expect("32 layers at most start at once");
        slot
    }

    fn start(&mut self, channel: u8, key: u8, velocity: u8, numbers: Numbers, first: u64) {
        let slot = self.slot_for(first);
        self.slots[slot] = Some(Voice {
            channel,
            key,
            velocity,
            age: self.started,
            marked: false,
            stage: Stage::Delay { spent: 0 },
            place: 0,
            numbers,
        });
        self.started += 1;
    }

    // Note-off and controls

    /// "A note-off releases every held voice (neither released nor marked) of channel and struck key, or marks them
    /// pedal-held while control 64 is 64 or more." The count is of the voices released or newly marked.
    pub fn note_off(&mut self, tables: &Tables, channel: u8, key: u8) -> Answer {
        if channel > 15 || key > 127 {
            return Err(PAST_RANGE);
        }
        Ok(self.let_go(tables, channel, |struck| struck == key))
    }

    fn let_go(&mut self, tables: &Tables, channel: u8, keys: impl Fn(u8) -> bool) -> u32 {
        let pedal_down = self.channels[channel as usize].pedal >= 64;
        let mut count = 0;
        for voice in self.voices() {
            let held = !voice.released() && !voice.marked;
            if voice.channel != channel || !keys(voice.key) || !held {
                continue;
            }
            if pedal_down {
                voice.marked = true;
            } else {
                voice.release(tables);
            }
            count += 1;
        }
        count
    }

    pub fn control(&mut self, tables: &Tables, channel: u8, control: u8, value: u8) -> Answer {
        if channel > 15 || control > 127 || value > 127 {
            return Err(PAST_RANGE);
        }
        let state = &mut self.channels[channel as usize];
        match control {
            0 => state.stored_bank = value,
            7 => state.volume = value,
            11 => state.expression = value,
            64 => self.pedal(tables, channel, value),
            120 => self.free_where(|voice| voice.channel == channel),
            123 => {
                self.let_go(tables, channel, |_| true);
            }
            _ => {}
        }
        Ok(0)
    }

    /// Control 64: below 64 the channel's marked voices are released.
    fn pedal(&mut self, tables: &Tables, channel: u8, value: u8) {
        self.channels[channel as usize].pedal = value;
        if value >= 64 {
            return;
        }
        for voice in self.voices() {
            if voice.channel == channel && voice.marked {
                voice.release(tables);
            }
        }
    }

    /// "Control 0 stores a bank that the next program change takes."
    pub fn program(&mut self, channel: u8, program: u8) -> Answer {
        if channel > 15 || program > 127 {
            return Err(PAST_RANGE);
        }
        let state = &mut self.channels[channel as usize];
        state.program = program;
        state.bank = state.stored_bank;
        Ok(0)
    }

    pub fn bend(&mut self, channel: u8, value: u16) -> Answer {
        if channel > 15 || value > 16_383 {
            return Err(PAST_RANGE);
        }
        self.channels[channel as usize].bend = value;
        Ok(0)
    }

    // Panel and render

    /// The voice of a slot, nothing if the slot is free.
    pub fn panel(&self, slot: u8) -> Result<Option<&Voice>, u32> {
        if slot > 31 {
            return Err(PAST_RANGE);
        }
        Ok(self.slots[slot as usize].as_ref())
    }

    pub fn render(&mut self, tables: &Tables, lent: &Lent, clock: u32, output: &mut [f32]) -> Answer {
        let distance = self.distance(lent, clock, output.len())?;
        for frame in output.chunks_exact_mut(2).take(distance) {
            self.frame(tables, lent, frame);
        }
        Ok(0)
    }

    /// "Render is told the clock value to reach; the distance is modulo 2^32." It is so many frames, or the refusal: 5,
    /// 6, 7, 8 in this order.
    pub fn distance(&self, lent: &Lent, clock: u32, room: usize) -> Result<usize, u32> {
        let distance = clock.wrapping_sub(self.clock);
        if distance >= 1 << 31 {
            return Err(TOO_FAR);
        }
        if distance > 4_096 {
            return Err(TOO_LONG);
        }
        if room < 2 * distance as usize {
            return Err(OUTPUT_TOO_SHORT);
        }
        let mut sounding = self.slots.iter().flatten();
        if sounding.any(|voice| lent.ends_past(&voice.numbers.window)) {
            return Err(PAST_MEMORY);
        }
        Ok(distance as usize)
    }

    /// The two numbers of one frame; the clock is one on.
    pub fn frame(&mut self, tables: &Tables, lent: &Lent, numbers: &mut [f32]) {
        let (left, right) = self.sums(tables, lent);
        numbers[0] = fraction(left);
        numbers[1] = fraction(right);
        self.clock = self.clock.wrapping_add(1);
    }

    /// The sums of all voices in one frame.
    fn sums(&mut self, tables: &Tables, lent: &Lent) -> (i64, i64) {
        let mut sums = (0, 0);
        for slot in &mut self.slots {
            let Some(voice) = slot else { continue };
            let memory = lent.memory(voice.numbers.window.rom);
            let channel = &self.channels[voice.channel as usize];
            let controls = Controls { bend: channel.bend, volume: channel.volume, expression: channel.expression };
            let (left, right) = slot_frame(slot, tables, memory, controls);
            sums = (sums.0 + left, sums.1 + right);
        }
        sums
    }
}

/// "The sum of voices, held to -2^23..2^23, times 2^-23 is the output, exact": both steps lose nothing in binary32.
fn fraction(sum: i64) -> f32 {
    let held = sum.clamp(-(1 << 23), 1 << 23);
    held as f32 / (1 << 23) as f32
}
