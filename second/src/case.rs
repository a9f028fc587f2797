//! Case files and traces: commands are read from a case as it is played, and each call writes a line of the trace.
//!
//! The letters i, j, d, u and h are the repository's own, and L, G, H, V and E the player's: ../README.md says what each
//! does.

use crate::bank::Bank;
use crate::bank_admission::{admit, list, Fault};
use crate::player::{Applied, Player};
use crate::slots_keys_clock::{Answer, Lent, BANK_NOT_ADMITTED};
use crate::strike;
use crate::tables_and_steps::{tables, Tables};
use crate::voice::{Stage, Voice};
use std::io::{self, ErrorKind, Read, Write};

/// What there is room for.
pub const BANK_ROOM: u32 = 66_000;
pub const MEMORY_ROOM: u32 = 65_536;
pub const OUTPUT_ROOM: u32 = 8_448;
pub const SONG_ROOM: u32 = 66_000;

/// What each number of a render's output holds before the call.
const BEFORE: u32 = 0x1234_5678;

/// Why a run ends: the case is damaged, by a command of which this can be said, or reading or writing failed.
pub(crate) enum Stop {
    Bad(&'static str),
    Failed(io::Error),
}

const CUT_OFF: Stop = Stop::Bad("is cut off");
pub(crate) const NO_ROOM: Stop = Stop::Bad("names more than there is room for");
pub(crate) const UNKNOWN: Stop = Stop::Bad("is unknown");
const NO_STROKE: Stop = Stop::Bad("names a stroke that no hammer makes");

impl From<io::Error> for Stop {
    /// A command that is cut off is a damaged case, and no failure of reading.
    fn from(error: io::Error) -> Stop {
        match error.kind() {
            ErrorKind::UnexpectedEof => CUT_OFF,
            _ => Stop::Failed(error),
        }
    }
}

/// The numbers of a command, little-endian.
pub(crate) struct Commands<R: Read> {
    pub(crate) input: R,
}

impl<R: Read> Commands<R> {
    /// The next command's letter, nothing at the end of the case.
    pub(crate) fn letter(&mut self) -> Result<Option<u8>, Stop> {
        match self.byte() {
            Ok(letter) => Ok(Some(letter)),
            Err(Stop::Bad(_)) => Ok(None),
            Err(failed) => Err(failed),
        }
    }

    pub(crate) fn byte(&mut self) -> Result<u8, Stop> {
        let mut bytes = [0; 1];
        self.input.read_exact(&mut bytes)?;
        Ok(bytes[0])
    }

    fn u16(&mut self) -> Result<u16, Stop> {
        let mut bytes = [0; 2];
        self.input.read_exact(&mut bytes)?;
        Ok(u16::from_le_bytes(bytes))
    }

    pub(crate) fn u32(&mut self) -> Result<u32, Stop> {
        let mut bytes = [0; 4];
        self.input.read_exact(&mut bytes)?;
        Ok(u32::from_le_bytes(bytes))
    }

    pub(crate) fn bytes(&mut self, count: usize) -> Result<Vec<u8>, Stop> {
        let mut bytes = vec![0; count];
        self.input.read_exact(&mut bytes)?;
        Ok(bytes)
    }

    /// A length that may not be above what there is room for.
    pub(crate) fn length(&mut self, room: u32) -> Result<usize, Stop> {
        let length = self.u32()?;
        if length > room {
            return Err(NO_ROOM);
        }
        Ok(length as usize)
    }

    /// A length, and so many bytes.
    fn counted(&mut self, room: u32) -> Result<Vec<u8>, Stop> {
        let length = self.length(room)?;
        self.bytes(length)
    }

    fn memory(&mut self, room: u32) -> Result<Vec<i16>, Stop> {
        let length = self.length(room)?;
        let bytes = self.bytes(2 * length)?;
        let pairs = bytes.chunks_exact(2);
        Ok(pairs.map(|b| i16::from_le_bytes([b[0], b[1]])).collect())
    }
}

/// A sample memory and how much of it is lent.
#[derive(Default)]
struct Memory {
    samples: Vec<i16>,
    lent: usize,
}

impl Memory {
    fn new(samples: Vec<i16>) -> Memory {
        let lent = samples.len();
        Memory { samples, lent }
    }

    /// Only the first n samples are lent, at most all of them.
    fn cut(&mut self, n: u32) {
        self.lent = self.samples.len().min(n as usize);
    }

    fn part(&self) -> &[i16] {
        &self.samples[..self.lent]
    }
}

/// The player and what is lent to it, as a case goes on.
pub(crate) struct CaseRun {
    tables: &'static Tables,
    player: Player,
    bank: Result<Bank, Fault>,
    ram: Memory,
    rom: Memory,
    song: Vec<u8>,
    /// How many samples each memory may have.
    memory_room: u32,
}

/// Plays a case and writes its trace. A damaged case ends with the line `bad`.
pub fn play(input: impl Read, output: impl Write) -> io::Result<()> {
    let mut case = CaseRun::new(MEMORY_ROOM);
    run(input, output, |commands| match commands.letter()? {
        None => Ok(None),
        Some(letter) => case.command(letter, commands).map(Some),
    })
}

/// Writes what each command gives, up to the end of the input. What is damaged ends the run with the line `bad`.
pub(crate) fn run<R: Read>(
    input: R,
    mut output: impl Write,
    mut next: impl FnMut(&mut Commands<R>) -> Result<Option<Vec<u8>>, Stop>,
) -> io::Result<()> {
    let mut commands = Commands { input };
    loop {
        match next(&mut commands) {
            Ok(Some(lines)) => output.write_all(&lines)?,
            Ok(None) => break,
            Err(Stop::Bad(_)) => {
                output.write_all(b"bad\n")?;
                break;
            }
            Err(Stop::Failed(error)) => return Err(error),
        }
    }
    output.flush()
}

/// The line of a t command: a case's name.
fn name_line<R: Read>(commands: &mut Commands<R>) -> Result<Vec<u8>, Stop> {
    let length = commands.byte()?;
    let name = commands.bytes(length as usize)?;
    Ok([b"t ", name.as_slice(), b"\n"].concat())
}

impl CaseRun {
    pub(crate) fn new(memory_room: u32) -> CaseRun {
        CaseRun {
            tables: tables(),
            player: Player::fresh(0),
            bank: admit(&[]),
            ram: Memory::default(),
            rom: Memory::default(),
            song: Vec::new(),
            memory_room,
        }
    }

    /// One command; the answer is its line, or nothing where it has none.
    pub(crate) fn command<R: Read>(&mut self, letter: u8, c: &mut Commands<R>) -> Result<Vec<u8>, Stop> {
        match letter {
            b'B' => self.bank = admit(&c.counted(BANK_ROOM)?),
            b'L' => self.song = c.counted(SONG_ROOM)?,
            b'M' => self.ram = Memory::new(c.memory(self.memory_room)?),
            b'O' => self.rom = Memory::new(c.memory(self.memory_room)?),
            b'm' => self.ram.cut(c.u32()?),
            b'x' => self.rom.cut(c.u32()?),
            b'F' => self.player = Player::fresh(c.u32()?),
            b't' => return name_line(c),
            b'h' => return self.hammer(c).map(String::into_bytes),
            _ => return self.call(letter, c).map(String::into_bytes),
        }
        Ok(Vec::new())
    }

    /// A command that is a call, and its line.
    fn call<R: Read>(&mut self, letter: u8, c: &mut Commands<R>) -> Result<String, Stop> {
        let answer = match letter {
            b'a' => counted(self.admission()),
            b'l' => self.listing(c.u32()?),
            b'i' => counted(self.admission()),
            b'j' => self.listing(c.u32()?),
            b'd' => self.defect(),
            b'u' => format!("0 {}", self.sounding()),
            b'n' | b'o' | b'c' | b'p' | b'b' => counted(self.event(letter, c)?),
            b'r' | b'V' => self.render_line(letter, c)?,
            b's' => self.panel(c.byte()?),
            b'G' | b'H' | b'E' => self.song_call(letter),
            _ => return Err(UNKNOWN),
        };
        let state = self.state();
        Ok(format!("{} {answer} | {state}\n", letter as char))
    }

    fn admission(&self) -> Answer {
        match self.bank {
            Ok(_) => Ok(0),
            Err(_) => Err(BANK_NOT_ADMITTED),
        }
    }

    fn listing(&self, place: u32) -> String {
        match &self.bank {
            Err(_) => BANK_NOT_ADMITTED.to_string(),
            Ok(bank) => match list(bank, place) {
                None => "0 end".to_string(),
                Some((program, number, next)) => format!("0 {program} {number} {next}"),
            },
        }
    }

    /// The kind of the bank's fault and its place, 0 and 0 where it is admitted.
    fn defect(&self) -> String {
        match &self.bank {
            Ok(_) => "0 0".to_string(),
            Err(fault) => format!("{} {}", fault.kind.number(), fault.place),
        }
    }

    /// The voices that a struck key would start; the engine has no part in it, and its state is not shown.
    fn hammer<R: Read>(&self, c: &mut Commands<R>) -> Result<String, Stop> {
        let [program, number, key, velocity] = [c.byte()?, c.byte()?, c.byte()?, c.byte()?];
        if key > 127 || velocity == 0 || velocity > 127 {
            return Err(NO_STROKE);
        }
        Ok(strike::lines(&self.bank, program, number, key, velocity))
    }

    fn sounding(&self) -> usize {
        self.player.engine.slots.iter().flatten().count()
    }

    /// A direct event: n, o, c, p or b.
    fn event<R: Read>(&mut self, letter: u8, c: &mut Commands<R>) -> Result<Answer, Stop> {
        let lent = Lent { bank: &self.bank, ram: self.ram.part(), rom: self.rom.part() };
        let engine = &mut self.player.engine;
        let channel = c.byte()?;
        Ok(match letter {
            b'n' => engine.note_on(self.tables, &lent, channel, c.byte()?, c.byte()?),
            b'o' => engine.note_off(self.tables, channel, c.byte()?),
            b'c' => engine.control(self.tables, channel, c.byte()?, c.byte()?),
            b'p' => engine.program(channel, c.byte()?),
            _ => engine.bend(channel, c.u16()?),
        })
    }

    /// What G, H or E answers: the song starts, stops, or is asked whether it is over.
    fn song_call(&mut self, letter: u8) -> String {
        match letter {
            b'G' => match self.player.start(self.tables, &self.song) {
                Ok(()) => "0 0".to_string(),
                Err(fault) => format!("{} {}", fault.number, fault.place),
            },
            b'H' => {
                self.player.stop(self.tables);
                "0 0".to_string()
            }
            _ => format!("0 {} {}", u8::from(self.player.over()), self.sounding()),
        }
    }

    /// The answer of an r or V command, and the whole output after it. The engine's own render applies no event.
    fn render<R: Read>(&mut self, letter: u8, c: &mut Commands<R>) -> Result<(Result<Applied, u32>, Vec<f32>), Stop> {
        let (clock, length) = (c.u32()?, c.length(OUTPUT_ROOM)?);
        let lent = Lent { bank: &self.bank, ram: self.ram.part(), rom: self.rom.part() };
        let mut output = vec![f32::from_bits(BEFORE); length];
        let answer = if letter == b'V' {
            self.player.render(self.tables, &lent, &self.song, clock, &mut output)
        } else {
            let answer = self.player.engine.render(self.tables, &lent, clock, &mut output);
            answer.map(|_| Applied::default())
        };
        Ok((answer, output))
    }

    /// What an r or V command answers: the number, for V the counts, which are 0 where it is refused, and the hash.
    fn render_line<R: Read>(&mut self, letter: u8, c: &mut Commands<R>) -> Result<String, Stop> {
        let (answer, output) = self.render(letter, c)?;
        let number = answer.err().unwrap_or(0);
        let hash = hash(output.iter().flat_map(|number| number.to_bits().to_le_bytes()));
        let Applied { events, refused } = answer.unwrap_or_default();
        Ok(match letter {
            b'V' => format!("{number} {events} {refused} {hash:016x}"),
            _ => format!("{number} {hash:016x}"),
        })
    }

    /// The numbers that an r or V command writes, two for each frame; none where it is refused.
    pub(crate) fn rendered<R: Read>(&mut self, letter: u8, c: &mut Commands<R>) -> Result<Vec<f32>, Stop> {
        let before = self.player.engine.clock;
        let (_, mut output) = self.render(letter, c)?;
        output.truncate(2 * self.player.engine.clock.wrapping_sub(before) as usize);
        Ok(output)
    }

    fn panel(&self, slot: u8) -> String {
        match self.player.engine.panel(slot) {
            Err(number) => number.to_string(),
            Ok(None) => "0 f".to_string(),
            Ok(Some(voice)) => format!("0 {}", self.stage(voice)),
        }
    }

    /// The clock, the word, and each sounding slot with its stage.
    fn state(&self) -> String {
        let engine = &self.player.engine;
        let mut text = format!("{:08x} {:08x}", engine.clock, engine.word());
        for (slot, voice) in engine.slots.iter().enumerate() {
            if let Some(voice) = voice {
                text += &format!(" {slot}{}", self.stage(voice));
            }
        }
        text
    }

    /// The stage's letter, and behind a colon the level as an exact binary32 fraction of full, where it carries one.
    fn stage(&self, voice: &Voice) -> String {
        let letter = match voice.stage {
            Stage::Delay { .. } => 'd',
            Stage::Attack { .. } => 'a',
            Stage::Hold { .. } => 'h',
            Stage::Decay { .. } => 'y',
            Stage::Sustain => 'u',
            Stage::Release { .. } => 'r',
        };
        match voice.level(self.tables) {
            None => letter.to_string(),
            Some(level) => {
                let fraction = level as f32 / (1 << 24) as f32;
                format!("{letter}:{:08x}", fraction.to_bits())
            }
        }
    }
}

/// The number of the table and the count, which is 0 on a refusal.
fn counted(answer: Answer) -> String {
    match answer {
        Ok(count) => format!("0 {count}"),
        Err(number) => format!("{number} 0"),
    }
}

/// The FNV-1a hash of 64 bits.
pub(crate) fn hash(bytes: impl Iterator<Item = u8>) -> u64 {
    bytes.fold(0xcbf2_9ce4_8422_2325, |hash, byte| (hash ^ byte as u64).wrapping_mul(0x100_0000_01b3))
}
