// For tools/stack, which says what it is about. Two ways to look at the calls of the compiled engine while they run:
//
//     painted CASE TRACE       plays the case and prints for each call how far down it has written, at most
//     plain CASE TRACE         plays the case
use std::collections::HashMap;
use std::process::ExitCode;
use std::{fs, str};

const ENGINE_BYTES: usize = number(env!("ENGINE_BYTES"));
const ANSWER_BYTES: usize = number(env!("ANSWER_BYTES"));
const PLAYER_BYTES: usize = number(env!("PLAYER_BYTES"));
/// What the player's start and render answer.
const BEGUN_BYTES: usize = number(env!("BEGUN_BYTES"));
const TOLD_BYTES: usize = number(env!("TOLD_BYTES"));

const fn number(text: &str) -> usize {
    let mut n = 0;
    let mut at = 0;
    while at < text.len() {
        n = 10 * n + (text.as_bytes()[at] - b'0') as usize;
        at += 1;
    }
    n
}

/// The calls: their letters in a case (a fresh engine has none, and is made beside each fresh player), and the functions.
const CALLS: [(char, &str); 16] = [
    ('f', "state::quiet::fresh"),
    ('n', "events::striking::note_on"),
    ('o', "events::keys::note_off"),
    ('c', "events::controls::control_change"),
    ('p', "events::programs::program_change"),
    ('b', "events::bends::pitch_bend"),
    ('r', "engine::rendering::render"),
    ('s', "state::board::panel"),
    ('u', "state::board::voice_count"),
    ('a', "engine::banks::admit"),
    ('l', "engine::banks::list"),
    ('F', "player::cues::fresh"),
    ('G', "player::pauses::start"),
    ('H', "player::pauses::stop"),
    ('V', "player::playing::render"),
    ('E', "player::asking::is_over"),
];

fn main() -> ExitCode {
    let arguments: Vec<String> = std::env::args().skip(1).collect();
    let read = |at: usize| fs::read(&arguments[at]).unwrap_or_else(|error| panic!("{}: {error}", arguments[at]));
    match arguments.first().map(String::as_str) {
        Some("plain") => {
            Player::new(false).play(&read(1), &read(2));
        }
        // a thread has its stack whole from the start, so that all of it can be painted
        Some("painted") => {
            let (case, trace) = (read(1), read(2));
            let painter = std::thread::Builder::new().stack_size(4 * PAINTED);
            let deepest = painter.spawn(move || Player::new(true).play(&case, &trace)).unwrap().join().unwrap();
            println!("the state has {ENGINE_BYTES} bytes, and an answer {ANSWER_BYTES}, both the caller's");
            println!(
                "a player has {PLAYER_BYTES}, and what start and render of it answer {BEGUN_BYTES} and {TOLD_BYTES}"
            );
            println!("how far down the calls of all stored cases have written:");
            for (letter, name) in CALLS {
                println!("{:8} bytes  {name}", deepest.get(&letter).copied().unwrap_or(0));
            }
        }
        _ => return ExitCode::from(2),
    }
    ExitCode::SUCCESS
}

// ---- Painting

/// How far down the stack is painted.
const PAINTED: usize = 256 * 1024;
const COLOUR: u64 = 0x5ca1_ab1e_0ddb_a115;

/// How far down a call writes, counted from here.
#[inline(never)]
fn depth(call: &mut dyn FnMut()) -> usize {
    let here: usize;
    // SAFETY: it reads a register.
    unsafe { std::arch::asm!("mov {}, rsp", out(reg) here) };
    let words = (here - PAINTED..here - 64).step_by(8);
    for word in words.clone() {
        // SAFETY: nothing stands below the stack pointer of a thread that has room there.
        unsafe { (word as *mut u64).write_volatile(COLOUR) };
    }
    call();
    // SAFETY: as above.
    let painted = |word: &usize| unsafe { (*word as *const u64).read_volatile() } == COLOUR;
    here - words.into_iter().find(|word| !painted(word)).unwrap_or(here)
}

// ---- The calls

/// What is lent: where it begins, and how many elements there are.
#[derive(Clone, Copy)]
struct Lent(*const u8, usize);

#[rustfmt::skip]
extern "C" {
    #[link_name = "state::quiet::fresh"] fn fresh(engine: *mut u8);
    #[link_name = "events::striking::note_on"] fn note_on(answer: *mut u8, engine: *const u8, bank: *const u8, bank_length: usize, ram: *const u8, ram_length: usize, rom: *const u8, rom_length: usize, channel: u8, key: u8, velocity: u8);
    #[link_name = "events::keys::note_off"] fn note_off(answer: *mut u8, engine: *const u8, channel: u8, key: u8);
    #[link_name = "events::controls::control_change"] fn control_change(answer: *mut u8, engine: *const u8, channel: u8, control: u8, value: u8);
    #[link_name = "events::programs::program_change"] fn program_change(answer: *mut u8, engine: *const u8, channel: u8, program: u8);
    #[link_name = "events::bends::pitch_bend"] fn pitch_bend(answer: *mut u8, engine: *const u8, channel: u8, bend: u16);
    #[link_name = "engine::rendering::render"] fn render(answer: *mut u8, engine: *const u8, ram: *const u8, ram_length: usize, rom: *const u8, rom_length: usize, out: *const u8, out_length: usize, to: u32);
    #[link_name = "state::board::panel"] fn panel(engine: *const u8, slot: u8) -> u8;
    #[link_name = "state::board::voice_count"] fn voice_count(engine: *const u8) -> u32;
    #[link_name = "engine::banks::admit"] fn admit(bank: *const u8, bank_length: usize) -> u8;
    #[link_name = "engine::banks::list"] fn list(listed: *mut u8, bank: *const u8, bank_length: usize, place: u32);
    #[link_name = "player::cues::fresh"] fn fresh_player(player: *mut u8);
    #[link_name = "player::pauses::start"] fn start(begun: *mut u8, player: *const u8, song: *const u8, song_length: usize);
    #[link_name = "player::pauses::stop"] fn stop(after: *mut u8, player: *const u8);
    #[link_name = "player::playing::render"] fn render_song(told: *mut u8, player: *const u8, song: *const u8, song_length: usize, bank: *const u8, bank_length: usize, ram: *const u8, ram_length: usize, rom: *const u8, rom_length: usize, out: *const u8, out_length: usize, to: u32);
    #[link_name = "player::asking::is_over"] fn is_over(player: *const u8) -> bool;
}

/// Room that is aligned for a state or a player.
#[repr(C, align(16))]
struct Room([u8; 4 * ANSWER_BYTES]);

/// A case, or what is left of it.
struct Case<'a>(&'a [u8]);

impl<'a> Case<'a> {
    fn bytes(&mut self, n: usize) -> &'a [u8] {
        let (front, behind) = self.0.split_at(n);
        self.0 = behind;
        front
    }

    /// A count of four bytes, and so many elements of a size.
    fn counted(&mut self, size: usize) -> (Vec<u8>, usize) {
        let n = whole(self.bytes(4)) as usize;
        (self.bytes(size * n).to_vec(), n)
    }
}

/// A little-endian number.
fn whole(bytes: &[u8]) -> u32 {
    bytes.iter().rev().fold(0, |n, byte| 256 * n + u32::from(*byte))
}

/// The player, whose first field is the engine, and what is lent to it, as a case goes on: the bank, the song, and of each memory the
/// bytes and how many samples.
struct Player {
    paint: bool,
    player: Box<Room>,
    answer: Box<Room>,
    bank: Vec<u8>,
    song: Vec<u8>,
    ram: (Vec<u8>, usize),
    rom: (Vec<u8>, usize),
    output: Vec<f32>,
    deepest: HashMap<char, usize>,
}

impl Player {
    fn new(paint: bool) -> Player {
        let room = || Box::new(Room([0; 4 * ANSWER_BYTES]));
        let (bank, song, ram, rom, deepest) = Default::default();
        let mut player =
            Player { paint, player: room(), answer: room(), bank, song, ram, rom, output: vec![0.0; 8_448], deepest };
        player.make('F', &[0; 4]);
        player
    }

    /// Plays a case; each call that answers a number has to answer that of the trace.
    fn play(mut self, case: &[u8], trace: &[u8]) -> HashMap<char, usize> {
        let of_call = |line: &&[u8]| line.get(1) == Some(&b' ') && !b"tvh".contains(&line[0]);
        let mut lines = trace.split(|byte| *byte == b'\n').filter(of_call);
        let mut case = Case(case);
        while !case.0.is_empty() {
            let letter = case.bytes(1)[0] as char;
            if self.lend(letter, &mut case) {
                continue;
            }
            let bytes = case.bytes(match letter {
                'r' | 'V' => 8,
                'F' | 'l' | 'j' | 'h' => 4,
                'n' | 'c' | 'b' => 3,
                'o' | 'p' => 2,
                's' => 1,
                _ => 0,
            });
            let number = self.make(letter, bytes);
            if "Fh".contains(letter) {
                continue;
            }
            let line = str::from_utf8(lines.next().expect("the trace has a line for each call")).unwrap();
            let said: Option<u32> = line.split(' ').nth(1).and_then(|word| word.parse().ok());
            assert!(
                number.is_none() || number == said,
                "{letter} {bytes:?} answers {number:?}, and the trace has {line}"
            );
        }
        self.deepest
    }

    /// Does what a letter says that is no call; false where it is a call.
    fn lend(&mut self, letter: char, case: &mut Case) -> bool {
        match letter {
            't' => {
                let n = case.bytes(1)[0] as usize;
                case.bytes(n);
            }
            'B' => self.bank = case.counted(1).0,
            'L' => self.song = case.counted(1).0,
            'M' => self.ram = case.counted(2),
            'O' => self.rom = case.counted(2),
            'm' => self.ram.1 = (self.ram.0.len() / 2).min(whole(case.bytes(4)) as usize),
            'x' => self.rom.1 = (self.rom.0.len() / 2).min(whole(case.bytes(4)) as usize),
            _ => return false,
        }
        true
    }

    /// Makes the call of a letter, and gives the number that it answers; nothing for one that answers in another form.
    fn make(&mut self, letter: char, a: &[u8]) -> Option<u32> {
        let (bank, song) = (Lent(self.bank.as_ptr(), self.bank.len()), Lent(self.song.as_ptr(), self.song.len()));
        let (ram, rom) = (Lent(self.ram.0.as_ptr(), self.ram.1), Lent(self.rom.0.as_ptr(), self.rom.1));
        let mut number = None;
        // SAFETY: each function takes what is declared above, and all that is lent lives on.
        unsafe {
            match letter {
                'F' => {
                    self.call('f', |_, e| fresh(e));
                    self.call(letter, |_, p| fresh_player(p));
                    // the clock is the state's last field
                    self.player.0[ENGINE_BYTES - 4..ENGINE_BYTES].copy_from_slice(a);
                }
                'n' => self
                    .call(letter, |r, e| note_on(r, e, bank.0, bank.1, ram.0, ram.1, rom.0, rom.1, a[0], a[1], a[2])),
                'o' => self.call(letter, |r, e| note_off(r, e, a[0], a[1])),
                'c' => self.call(letter, |r, e| control_change(r, e, a[0], a[1], a[2])),
                'p' => self.call(letter, |r, e| program_change(r, e, a[0], a[1])),
                'b' => self.call(letter, |r, e| pitch_bend(r, e, a[0], whole(&a[1..]) as u16)),
                'r' => {
                    let out = Lent(self.output.as_mut_ptr().cast(), whole(&a[4..]) as usize);
                    self.call(letter, |r, e| render(r, e, ram.0, ram.1, rom.0, rom.1, out.0, out.1, whole(&a[..4])));
                }
                's' => self.call(letter, |_, e| {
                    std::hint::black_box(panel(e, a[0]));
                }),
                'u' => self.call(letter, |_, e| {
                    std::hint::black_box(voice_count(e));
                }),
                'a' => self.call(letter, |_, _| number = Some(u32::from(admit(bank.0, bank.1)))),
                'l' => self.call(letter, |r, _| list(r, bank.0, bank.1, whole(a))),
                'G' => self.call(letter, |r, p| start(r, p, song.0, song.1)),
                'H' => self.call(letter, |r, p| stop(r, p)),
                'V' => {
                    let out = Lent(self.output.as_mut_ptr().cast(), whole(&a[4..]) as usize);
                    self.call(letter, |r, p| {
                        render_song(
                            r,
                            p,
                            song.0,
                            song.1,
                            bank.0,
                            bank.1,
                            ram.0,
                            ram.1,
                            rom.0,
                            rom.1,
                            out.0,
                            out.1,
                            whole(&a[..4]),
                        )
                    });
                }
                'E' => self.call(letter, |_, p| {
                    std::hint::black_box(is_over(p));
                }),
                _ => {}
            }
        }
        // an answer ends with the state, or with the player
        let (end, size) = match letter {
            'n' | 'o' | 'c' | 'p' | 'b' | 'r' => (ANSWER_BYTES, ENGINE_BYTES),
            'G' => (BEGUN_BYTES, PLAYER_BYTES),
            'V' => (TOLD_BYTES, PLAYER_BYTES),
            'H' => (PLAYER_BYTES, PLAYER_BYTES),
            _ => return number,
        };
        self.player.0[..size].copy_from_slice(&self.answer.0[end - size..end]);
        // and begins with the number, which a stop has none of
        if size < end {
            number = Some(u32::from(self.answer.0[0]));
        }
        number
    }

    /// Makes a call, painted or not.
    fn call(&mut self, letter: char, mut call: impl FnMut(*mut u8, *mut u8)) {
        let (answer, player) = (self.answer.0.as_mut_ptr(), self.player.0.as_mut_ptr());
        if !self.paint {
            return call(answer, player);
        }
        let without = depth(&mut || {
            std::hint::black_box(());
        });
        let with = depth(&mut || call(answer, player));
        let most = self.deepest.entry(letter).or_default();
        *most = (*most).max(with - without);
    }
}
