//! Plays the stored inputs of drive, fonts, songs and waves by the C library and writes the lines that they have.
//!
//!     replay play|fonts|songs|waves < INPUT > LINES
//!
//! What reads an input and writes its lines is the second program's own; below it stands the library, under the names of
//! that program's modules. C's state is closed, and three letters of a case ask for more than the calls tell: F names a
//! clock, so it is put where `tools/header --layout` finds it, and has to be what thularek_clock answers; h asks for the
//! numbers of struck voices, so these are read in the same way after a note-on with memories as long as any window; and the
//! word of a state is made of the panel's answers. Of a song that is not refused only this is compared.
#[path = "../../second/src/case.rs"]
#[allow(dead_code)]
mod case;
#[path = "../../second/src/fonts.rs"]
mod fonts;
#[path = "../../second/src/merges.rs"]
#[allow(dead_code)]
mod merges;
#[path = "../../second/src/songs.rs"]
#[allow(dead_code)]
mod songs;
#[path = "../thularek.rs"]
mod thularek;
#[path = "../../second/src/waves.rs"]
mod waves;

/// Where the numbers of the state lie: the lines of `tools/header --layout`.
mod layout {
    const LINES: &str = include_str!(env!("LAYOUT"));

    /// A number's place in the state.
    pub fn place(name: &str) -> usize {
        let named = |line: &&str| line.split(' ').nth(2) == Some(name);
        let line = LINES.lines().find(named).unwrap_or_else(|| panic!("the layout has no {name}"));
        line.split(' ').next().and_then(|place| place.parse().ok()).expect("a place")
    }
}

mod tables_and_steps {
    /// The library has its own.
    pub struct Tables;

    pub fn tables() -> &'static Tables {
        &Tables
    }
}

mod bank {
    /// A bank that is admitted.
    pub struct Bank {
        pub bytes: Vec<u8>,
    }
}

mod bank_admission {
    use crate::bank::Bank;
    use crate::thularek;

    pub struct Kind(u32);

    impl Kind {
        pub fn number(&self) -> u32 {
            20 + self.0
        }
    }

    pub struct Fault {
        pub kind: Kind,
        pub place: usize,
        pub bytes: Vec<u8>,
    }

    pub fn admit(bytes: &[u8]) -> Result<Bank, Fault> {
        let ((kind, place), bytes) = (thularek::bank_fault(bytes), bytes.to_vec());
        assert_eq!(thularek::admit(&bytes), u32::from(kind != 0));
        if kind == 0 {
            return Ok(Bank { bytes });
        }
        assert_eq!(thularek::list(&bytes, 0), (1, 0, 0, 0));
        Err(Fault { kind: Kind(kind), place, bytes })
    }

    pub fn list(bank: &Bank, place: u32) -> Option<(u16, u16, usize)> {
        match thularek::list(&bank.bytes, place) {
            (0, program, number, next) => Some((program, number, next)),
            end => {
                assert_eq!(end, (2, 0, 0, 0));
                None
            }
        }
    }
}

mod voice {
    use crate::tables_and_steps::Tables;

    pub enum Stage {
        Delay,
        Attack,
        Hold,
        Decay,
        Sustain,
        Release,
    }

    pub struct Voice {
        pub stage: Stage,
        pub shown: f32,
    }

    impl Voice {
        pub fn of(stage: u32, shown: f32) -> Option<Voice> {
            use Stage::*;
            let stage = match stage {
                0 => Delay,
                1 => Attack,
                2 => Hold,
                3 => Decay,
                4 => Sustain,
                5 => Release,
                _ => return None,
            };
            Some(Voice { stage, shown })
        }

        /// In units of 2^-24, as the second program has it.
        pub fn level(&self, _: &Tables) -> Option<f32> {
            match self.stage {
                Stage::Delay | Stage::Hold => None,
                _ => Some(self.shown * (1 << 24) as f32),
            }
        }
    }
}

mod slots_keys_clock {
    use crate::bank::Bank;
    use crate::bank_admission::Fault;
    use crate::layout;
    use crate::tables_and_steps::Tables;
    use crate::thularek::Thularek;
    use crate::voice::Voice;

    pub const BANK_NOT_ADMITTED: u32 = 1;

    pub type Answer = Result<u32, u32>;

    pub struct Lent<'a> {
        pub bank: &'a Result<Bank, Fault>,
        pub ram: &'a [i16],
        pub rom: &'a [i16],
    }

    impl Lent<'_> {
        /// A refused bank is lent all the same.
        pub fn bytes(&self) -> &[u8] {
            match self.bank {
                Ok(bank) => &bank.bytes,
                Err(fault) => &fault.bytes,
            }
        }
    }

    /// C's state, and what the calls tell of it.
    pub struct Engine {
        pub state: Thularek,
        pub slots: Vec<Option<Voice>>,
        pub clock: u32,
    }

    impl Engine {
        pub fn fresh(clock: u32) -> Engine {
            let mut state = Thularek::new();
            let at = layout::place("state.player.engine.clock");
            state.bytes()[at..at + 4].copy_from_slice(&clock.to_le_bytes());
            let mut engine = Engine { state, slots: Vec::new(), clock };
            engine.look();
            assert_eq!(engine.clock, clock);
            engine
        }

        /// Asks for the clock and each slot; the other questions have to agree.
        pub fn look(&mut self) {
            let state = &self.state;
            self.clock = state.clock();
            self.slots = (0..32).map(|slot| Voice::of(state.panel_stage(slot), state.panel_level(slot))).collect();
            let sounding = self.slots.iter().flatten().count() as u32;
            assert_eq!(state.voice_count(), sounding);
            assert_eq!(state.is_silent(), sounding == 0);
            assert!(state.held_count() <= sounding);
        }

        /// The answer of a call that acted: the number that it returned, and its count.
        fn answered(&mut self, number: u32) -> Answer {
            self.look();
            assert_eq!((self.state.refused(), self.state.place()), (0, 0));
            match number {
                0 => Ok(self.state.count()),
                _ => {
                    assert_eq!(self.state.count(), 0);
                    Err(number)
                }
            }
        }

        pub fn word(&self) -> u32 {
            (0..32).filter(|&slot| self.slots[slot].is_some()).map(|slot| 1 << slot).sum()
        }

        pub fn panel(&self, slot: u8) -> Result<Option<&Voice>, u32> {
            match self.state.panel_stage(slot) {
                7 => Err(2),
                _ => Ok(self.slots[slot as usize].as_ref()),
            }
        }

        pub fn note_on(&mut self, _: &Tables, lent: &Lent, channel: u8, key: u8, velocity: u8) -> Answer {
            let number = self.state.note_on(lent.bytes(), lent.ram, lent.rom, channel, key, velocity);
            self.answered(number)
        }

        pub fn note_off(&mut self, _: &Tables, channel: u8, key: u8) -> Answer {
            let number = self.state.note_off(channel, key);
            self.answered(number)
        }

        pub fn control(&mut self, _: &Tables, channel: u8, control: u8, value: u8) -> Answer {
            let number = self.state.control_change(channel, control, value);
            self.answered(number)
        }

        pub fn program(&mut self, channel: u8, program: u8) -> Answer {
            let number = self.state.program_change(channel, program);
            self.answered(number)
        }

        pub fn bend(&mut self, channel: u8, bend: u16) -> Answer {
            let number = self.state.pitch_bend(channel, bend);
            self.answered(number)
        }

        pub fn render(&mut self, _: &Tables, lent: &Lent, clock: u32, output: &mut [f32]) -> Answer {
            let number = self.state.render(lent.ram, lent.rom, output, clock);
            self.answered(number)
        }
    }
}

mod player {
    use crate::midi_file::Fault;
    use crate::slots_keys_clock::{Engine, Lent};
    use crate::tables_and_steps::Tables;

    pub struct Player {
        pub engine: Engine,
    }

    #[derive(Clone, Copy, Default)]
    pub struct Applied {
        pub events: u32,
        pub refused: u32,
    }

    impl Player {
        pub fn fresh(clock: u32) -> Player {
            Player { engine: Engine::fresh(clock) }
        }

        pub fn over(&self) -> bool {
            self.engine.state.song_is_over()
        }

        pub fn start(&mut self, _: &Tables, song: &[u8]) -> Result<(), Fault> {
            let number = self.engine.state.song_start(song);
            self.engine.look();
            match number {
                0 => Ok(()),
                _ => Err(Fault { number, place: self.engine.state.place() }),
            }
        }

        pub fn stop(&mut self, _: &Tables) {
            assert_eq!(self.engine.state.song_stop(), 0);
            self.engine.look();
        }

        pub fn render(
            &mut self,
            _: &Tables,
            lent: &Lent,
            song: &[u8],
            clock: u32,
            output: &mut [f32],
        ) -> Result<Applied, u32> {
            let state = &mut self.engine.state;
            let number = state.song_render(song, lent.bytes(), lent.ram, lent.rom, output, clock);
            let applied = Applied { events: state.count(), refused: state.refused() };
            self.engine.look();
            match number {
                0 => Ok(applied),
                _ => {
                    assert_eq!((applied.events, applied.refused), (0, 0));
                    Err(number)
                }
            }
        }
    }
}

mod strike {
    use crate::bank::Bank;
    use crate::bank_admission::Fault;
    use crate::layout;
    use crate::thularek::Thularek;
    use std::ffi::{c_int, c_void};
    use std::sync::OnceLock;

    extern "C" {
        fn mmap(at: *mut c_void, size: usize, access: c_int, kind: c_int, file: c_int, offset: i64) -> *mut c_void;
    }

    /// 2^32 samples, all 0, of which no page is ever touched: each window of an admitted bank ends within.
    fn endless() -> &'static [i16] {
        const SAMPLES: usize = 1 << 32;
        const READ: c_int = 1;
        const PRIVATE_ANONYMOUS_NORESERVE: c_int = 0x2 | 0x20 | 0x4000;
        static MEMORY: OnceLock<&[i16]> = OnceLock::new();
        MEMORY.get_or_init(|| unsafe {
            let memory = mmap(std::ptr::null_mut(), 2 * SAMPLES, READ, PRIVATE_ANONYMOUS_NORESERVE, -1, 0);
            assert!(memory as isize != -1, "there is no room for 2^32 samples");
            std::slice::from_raw_parts(memory.cast(), SAMPLES)
        })
    }

    /// Channel 9 always has bank 128.
    fn channel_for(state: &mut Thularek, program: u8, number: u8) -> u8 {
        let channel = if number == 128 { 9 } else { 0 };
        if number != 128 {
            assert_eq!(state.control_change(channel, 0, number), 0, "no channel has this bank");
        }
        assert_eq!(state.program_change(channel, program), 0, "no channel has this program");
        channel
    }

    pub fn lines(bank: &Result<Bank, Fault>, program: u8, number: u8, key: u8, velocity: u8) -> String {
        let Ok(bank) = bank else { return "h none\n".to_string() };
        let mut state = Thularek::new();
        let channel = channel_for(&mut state, program, number);
        match state.note_on(&bank.bytes, endless(), endless(), channel, key, velocity) {
            0 => {}
            3 => return "h none\n".to_string(),
            4 => return "h 33\n".to_string(),
            other => panic!("a note-on by {other}"),
        }
        let count = state.count();
        let voices: String = (0..count).map(|slot| voice_line(state.bytes(), slot)).collect();
        format!("h {count}\n{voices}")
    }

    /// The numbers of a voice that has just started, as the second program writes them.
    fn voice_line(state: &[u8; 8192], slot: u32) -> String {
        let at = |name: &str| layout::place(&format!("state.player.engine.voices[{slot}].{name}"));
        let byte = |name: &str| i64::from(state[at(name)]);
        let short = |name: &str| i16::from_le_bytes([state[at(name)], state[at(name) + 1]]);
        let long = |name: &str| i32::from_le_bytes(state[at(name)..at(name) + 4].try_into().expect("four bytes"));
        let frames = |name: &str| i64::from(long(name) as u32);
        assert_eq!(byte("stage.kind"), 0);
        let mode = byte("mode");
        let (loop_start, loop_end) = if mode == 0 { (0, 0) } else { (frames("loopfrom"), frames("loopto")) };
        let numbers = [
            frames("stage.t"),
            frames("attack"),
            frames("hold"),
            frames("decay"),
            frames("release"),
            i64::from(short("sustain") as u16),
            i64::from(short("pan")),
            i64::from(short("class")),
            i64::from(long("attenuation")),
            i64::from(long("pitch")),
            i64::from(short("rate") as u16),
            mode,
            byte("rom"),
            frames("start"),
            frames("end"),
            loop_start,
            loop_end,
        ];
        let numbers: String = numbers.iter().map(|number| format!(" {number}")).collect();
        format!("v{numbers}\n")
    }
}

mod riff_file {
    use std::ops::Range;

    pub struct Fault {
        pub number: u32,
        pub place: usize,
    }

    pub struct Parts {
        pub bank: Range<usize>,
        pub samples: Range<usize>,
    }

    pub fn read(file: &[u8]) -> Result<Parts, Fault> {
        let parts = crate::thularek::font(file);
        parts.map(|(bank, samples)| Parts { bank, samples }).map_err(|(number, place)| Fault { number, place })
    }
}

mod midi_file {
    pub struct Fault {
        pub number: u32,
        pub place: u32,
    }

    /// The calls do not tell a song's events.
    pub fn read(file: &[u8]) -> Result<Vec<(u32, Vec<u8>)>, Fault> {
        match crate::thularek::song_test(file) {
            (0, 0) => Ok(Vec::new()),
            (number, place) => Err(Fault { number, place }),
        }
    }
}

mod wave_file {
    use crate::thularek::{wave_heading, wave_pour, wave_read};

    const BEFORE: u8 = 0x5a;

    /// The numbers first, since 13 goes before the others. A refused call writes nothing.
    pub fn write(numbers: &[f32], room: usize) -> Result<Vec<u8>, u32> {
        let mut file = vec![BEFORE; room];
        let (heading, behind) = file.split_at_mut(room.min(44));
        let poured = wave_pour(numbers, behind);
        let number = if poured == 0 { wave_heading(numbers.len() as u64 / 2, heading) } else { poured };
        let written = if number == 0 { 44 + 2 * numbers.len() } else { 0 };
        assert!(file[written..].iter().all(|&byte| byte == BEFORE));
        file.truncate(written);
        if number == 0 {
            Ok(file)
        } else {
            Err(number)
        }
    }

    pub fn read(file: &[u8], room: usize) -> Result<Vec<i16>, u32> {
        let mut out = vec![i16::from(BEFORE); room];
        let (number, frames) = wave_read(file, &mut out);
        assert!(out[2 * frames as usize..].iter().all(|&sample| sample == i16::from(BEFORE)));
        out.truncate(2 * frames as usize);
        if number == 0 {
            Ok(out)
        } else {
            Err(number)
        }
    }
}

mod merge_file {
    pub struct Fault {
        pub number: u32,
        pub place: u32,
    }

    pub fn merge(file: &[u8], room: usize) -> Result<Vec<u8>, Fault> {
        const BEFORE: u8 = 0x5a;
        let mut out = vec![BEFORE; room];
        let (number, size, place) = crate::thularek::merge(file, &mut out);
        assert!(out[size..].iter().all(|&byte| byte == BEFORE));
        out.truncate(size);
        if number == 0 {
            Ok(out)
        } else {
            Err(Fault { number, place })
        }
    }
}

fn main() -> std::io::Result<()> {
    let (input, output) = (std::io::stdin().lock(), std::io::BufWriter::new(std::io::stdout().lock()));
    let input = std::io::BufReader::new(input);
    match std::env::args().nth(1).as_deref() {
        Some("play") => case::play(input, output),
        Some("fonts") => fonts::play(input, output),
        Some("songs") => songs::play(input, output),
        Some("waves") => waves::play(input, output),
        Some("merges") => merges::play(input, output),
        _ => Err(std::io::Error::other("usage: replay play|fonts|songs|waves|merges < INPUT > LINES")),
    }
}
