//! Document 01, "A voice, frame by frame": stages, envelope, reading, and what one voice adds to a frame.

use crate::key_to_layers::Numbers;
use crate::tables_and_steps::{bend_cents, Tables};

/// A stage with the frames already spent in it; a release also has the envelope's cB at which it began.
#[derive(Clone, Copy, Debug, PartialEq, Eq)]
pub enum Stage {
    Delay { spent: u64 },
    Attack { spent: u64 },
    Hold { spent: u64 },
    Decay { spent: u64 },
    Sustain,
    Release { from: i64, spent: u64 },
}

#[derive(Clone, Debug, PartialEq, Eq)]
pub struct Voice {
    pub channel: u8,
    /// Key and velocity as struck.
    pub key: u8,
    pub velocity: u8,
    /// The voices started before this one since the engine was fresh, without end.
    pub age: u64,
    /// Marked pedal-held by a note-off.
    pub marked: bool,
    pub stage: Stage,
    /// In 2^-24 samples from the window's start.
    pub place: u64,
    pub numbers: Numbers,
}

/// What counts as it stands at the frame: bend and controls 7 and 11 of the voice's channel.
#[derive(Clone, Copy)]
pub struct Controls {
    pub bend: u16,
    pub volume: u8,
    pub expression: u8,
}

const FULL: i64 = 1 << 24;

impl Voice {
    // Stages and envelope

    pub fn released(&self) -> bool {
        matches!(self.stage, Stage::Release { .. })
    }

    /// Attack, frame t of N: floor(2^24·t/N). An attack of no frames never stands; it would be at full.
    fn attack_level(&self, spent: u64) -> i64 {
        if self.numbers.attack == 0 {
            return FULL;
        }
        FULL * spent as i64 / self.numbers.attack as i64
    }

    /// The envelope's cB. Decay: floor(1,000·t/N), at most the sustain value, which is reached at once if N = 0.
    /// Release: a0 + floor(1,000·t/N), 1,000 if N = 0.
    fn envelope(&self) -> i64 {
        let n = &self.numbers;
        match self.stage {
            Stage::Delay { .. } | Stage::Attack { .. } | Stage::Hold { .. } => 0,
            Stage::Decay { .. } if n.decay == 0 => n.sustain,
            Stage::Decay { spent } => n.sustain.min((1_000 * spent / n.decay) as i64),
            Stage::Sustain => n.sustain,
            Stage::Release { .. } if n.release == 0 => 1_000,
            Stage::Release { from, spent } => from + (1_000 * spent / n.release) as i64,
        }
    }

    /// The stage behind this one, if this one is spent.
    fn stage_behind(&self) -> Option<Stage> {
        let n = &self.numbers;
        let (done, next) = match self.stage {
            Stage::Delay { spent } => (spent >= n.delay, Stage::Attack { spent: 0 }),
            Stage::Attack { spent } => (spent >= n.attack, Stage::Hold { spent: 0 }),
            Stage::Hold { spent } => (spent >= n.hold, Stage::Decay { spent: 0 }),
            Stage::Decay { .. } => (self.envelope() >= n.sustain, Stage::Sustain),
            Stage::Sustain | Stage::Release { .. } => return None,
        };
        done.then_some(next)
    }

    /// "A voice whose envelope stands at 1,000 cB or more in decay, sustain or release is freed."
    fn faded(&self) -> bool {
        let fades = match self.stage {
            Stage::Delay { .. } | Stage::Attack { .. } | Stage::Hold { .. } => false,
            Stage::Decay { .. } | Stage::Sustain | Stage::Release { .. } => true,
        };
        fades && self.envelope() >= 1_000
    }

    /// A release begins at once. a0 is the envelope's cB; in attack the least a whose gain is at most the level, 1,000
    /// if above that or if the level is 0; in delay 1,000.
    pub fn release(&mut self, tables: &Tables) {
        let from = match self.stage {
            Stage::Delay { .. } => 1_000,
            Stage::Attack { spent } => least_attenuation(tables, self.attack_level(spent)),
            _ => self.envelope(),
        };
        self.stage = Stage::Release { from, spent: 0 };
        self.marked = false;
    }

    /// One more frame is spent in the stage.
    fn spend(&mut self) {
        match &mut self.stage {
            Stage::Delay { spent }
            | Stage::Attack { spent }
            | Stage::Hold { spent }
            | Stage::Decay { spent }
            | Stage::Release { spent, .. } => *spent += 1,
            Stage::Sustain => {}
        }
    }

    /// The panel's level over 2^24: the attack's level, or the envelope's gain in decay, sustain and release.
    pub fn level(&self, tables: &Tables) -> Option<i64> {
        match self.stage {
            Stage::Delay { .. } | Stage::Hold { .. } => None,
            Stage::Attack { spent } => Some(self.attack_level(spent)),
            Stage::Decay { .. } | Stage::Sustain | Stage::Release { .. } => Some(tables.gain(self.envelope())),
        }
    }

    // Place and reading

    /// "Modes 1 and 3 (3 until release) fold."
    fn folds(&self) -> bool {
        match self.numbers.window.mode {
            1 => true,
            3 => !self.released(),
            _ => false,
        }
    }

    /// The four points (02, M-100), x1 at the place. x0 is the sample before it. While it folds, behind the loop's last
    /// sample stands its first. In front of the window's first sample and behind its last stand zeros.
    fn reading(&self, memory: &[i16]) -> i64 {
        let w = &self.numbers.window;
        let next = |place: i64| if self.folds() && place == w.loop_end - 1 { w.loop_start } else { place + 1 };
        let sample = |place: i64| if (w.start..w.end).contains(&place) { memory[place as usize] as i64 } else { 0 };
        let at = w.start + (self.place >> 24) as i64;
        let points = [at - 1, at, next(at), next(next(at))].map(sample);
        between(points, (self.place & 0xFF_FFFF) as i64 >> 12)
    }

    /// The step for the pitch total with the bend, held to -9,600..4,800.
    pub fn step(&self, tables: &Tables, bend: u16) -> u64 {
        let total = self.numbers.pitch + bend_cents(bend);
        tables.step(total.clamp(-9_600, 4_800), self.numbers.rate)
    }

    /// Moves the place by a step and folds it. False where it is at or past the end, and the voice is freed.
    fn advance(&mut self, step: u64) -> bool {
        let w = self.numbers.window;
        let from_start = |place: i64| ((place - w.start) as u64) << 24;
        self.place += step;
        if self.folds() {
            let length = from_start(w.loop_end) - from_start(w.loop_start);
            while self.place >= from_start(w.loop_end) {
                self.place -= length;
            }
            return true;
        }
        self.place < from_start(w.end)
    }

    // One frame

    /// Attenuation: generator 48's total, velocity, 7, 11 and envelope added, at least 0.
    fn attenuation(&self, tables: &Tables, controls: Controls) -> i64 {
        let channel = tables.control(controls.volume) + tables.control(controls.expression);
        (self.numbers.attenuation + channel + self.envelope()).max(0)
    }

    /// Left and right of a frame in which the voice is read.
    fn sides(&self, tables: &Tables, memory: &[i16], controls: Controls) -> (i64, i64) {
        let gain = tables.gain(self.attenuation(tables, controls));
        let mut u = (self.reading(memory) * gain).div_euclid(1 << 16);
        if let Stage::Attack { spent } = self.stage {
            u = (u * self.attack_level(spent)).div_euclid(FULL);
        }
        let pan = self.numbers.pan;
        ((u * (500 - pan)).div_euclid(1_000), (u * (500 + pan)).div_euclid(1_000))
    }

    /// One frame of this voice: what it adds left and right, and whether it still sounds behind the frame.
    fn frame(&mut self, tables: &Tables, memory: &[i16], controls: Controls) -> (i64, i64, bool) {
        while let Some(next) = self.stage_behind() {
            self.stage = next;
        }
        if self.faded() {
            return (0, 0, false);
        }
        if let Stage::Delay { .. } = self.stage {
            self.spend();
            return (0, 0, true);
        }
        let (left, right) = self.sides(tables, memory, controls);
        let sounds = self.advance(self.step(tables, controls.bend));
        self.spend();
        (left, right, sounds)
    }
}

/// Between x1 and x2 (02, M-100), q the top 12 bits of the fraction, Q = 4,096: floor((2·x1·Q³ + (x2-x0)·q·Q² +
/// (2·x0-5·x1+4·x2-x3)·q²·Q + (3·x1-x0-3·x2+x3)·q³) / (2·Q³)), held to the 16-bit range.
pub fn between([x0, x1, x2, x3]: [i64; 4], q: i64) -> i64 {
    const Q: i64 = 4_096;
    let sum = 2 * x1 * Q.pow(3)
        + (x2 - x0) * q * Q.pow(2)
        + (2 * x0 - 5 * x1 + 4 * x2 - x3) * q.pow(2) * Q
        + (3 * x1 - x0 - 3 * x2 + x3) * q.pow(3);
    sum.div_euclid(2 * Q.pow(3)).clamp(-32_768, 32_767)
}

/// The least a whose gain is at most the level; 1,000 if that is above 1,000 or if the level is 0.
pub fn least_attenuation(tables: &Tables, level: i64) -> i64 {
    let mut a = 0;
    while a < 1_000 && (level == 0 || tables.gain(a) > level) {
        a += 1;
    }
    a
}

/// One frame of a slot: what it adds left and right. The slot is emptied where its voice is freed; a free one is silent.
pub fn slot_frame(slot: &mut Option<Voice>, tables: &Tables, memory: &[i16], controls: Controls) -> (i64, i64) {
    let Some(voice) = slot else { return (0, 0) };
    let (left, right, sounds) = voice.frame(tables, memory, controls);
    if !sounds {
        *slot = None;
    }
    (left, right)
}
