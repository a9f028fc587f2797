//! An engine with what is lent to it, for tests.
#![allow(dead_code)]

pub mod songs;

use second::bank::Bank;
use second::bank_admission::{admit, Fault};
use second::make::bank_builder::BankPlan;
use second::slots_keys_clock::{Answer, Engine, Lent};
use second::tables_and_steps::tables;
use second::voice::Voice;

pub struct Rig {
    pub engine: Engine,
    pub bank: Result<Bank, Fault>,
    pub ram: Vec<i16>,
    pub rom: Vec<i16>,
}

impl Rig {
    pub fn new(plan: &BankPlan, ram: &[i16]) -> Rig {
        Rig {
            engine: Engine::fresh(0),
            bank: admit(&plan.bytes()),
            ram: ram.to_vec(),
            rom: ram.iter().rev().copied().collect(),
        }
    }

    pub fn on(&mut self, channel: u8, key: u8, velocity: u8) -> Answer {
        let lent = Lent { bank: &self.bank, ram: &self.ram, rom: &self.rom };
        let engine = &mut self.engine;
        engine.note_on(tables(), &lent, channel, key, velocity)
    }

    pub fn off(&mut self, channel: u8, key: u8) -> Answer {
        self.engine.note_off(tables(), channel, key)
    }

    pub fn control(&mut self, channel: u8, control: u8, value: u8) -> Answer {
        self.engine.control(tables(), channel, control, value)
    }

    /// A render to a clock value into an output as it is.
    pub fn render_to(&mut self, clock: u32, output: &mut [f32]) -> Answer {
        let lent = Lent { bank: &self.bank, ram: &self.ram, rom: &self.rom };
        self.engine.render(tables(), &lent, clock, output)
    }

    /// The next n frames.
    pub fn render(&mut self, n: u32) -> Vec<f32> {
        let mut output = vec![7.0; 2 * n as usize];
        let target = self.engine.clock.wrapping_add(n);
        assert_eq!(self.render_to(target, &mut output), Ok(0));
        output
    }

    /// The next frame's left and right sums: the output times 2^23.
    pub fn sums(&mut self) -> (i64, i64) {
        let frame = self.render(1);
        let whole = |number: f32| (number * (1 << 23) as f32) as i64;
        (whole(frame[0]), whole(frame[1]))
    }

    /// The voice in a slot that sounds.
    pub fn voice(&self, slot: usize) -> &Voice {
        self.engine.slots[slot].as_ref().expect("the slot is to sound")
    }

    /// Controls 7 and 11 take nothing away.
    pub fn at_full(mut self) -> Rig {
        assert_eq!(self.control(0, 7, 127), Ok(0));
        self
    }
}
