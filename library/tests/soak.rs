//! soak SEED FROM COUNT [FILE..]: so many trials from one on. Each takes a bank, a song, a song of several tracks or a
//! SoundFont file, made by chance, stored in the repository or given as FILE, changes some of its bytes, and hands it to
//! the library and to the second program in one process. Answers, places, counts and the numbers of short renders have
//! to be the same. A trial depends on the seed and its number alone, so that one that differs can be run again by itself.
use second::bank_admission::{admit, list};
use second::bells;
use second::make::chance::Chance;
use second::make::chance_cases;
use second::make::font_builder::{chunk, form, list as list_of};
use second::merge_file;
use second::midi_file;
use second::player::Player;
use second::riff_file;
use second::slots_keys_clock::Lent;
use second::tables_and_steps::tables;
use std::collections::BTreeMap;
use std::time::{Duration, Instant};

#[path = "../thularek.rs"]
mod thularek;
use thularek::Thularek;

/// The frames of a short render.
const FRAMES: usize = 96;
const MEMORY: usize = 400;

/// What a trial is about.
#[derive(Clone, Copy, Debug, PartialEq, Eq, PartialOrd, Ord)]
enum Kind {
    Bank,
    Song,
    Tracks,
    Font,
}

/// What the trials begin from, beside what is made by chance: real banks with their samples, and files.
struct Sources {
    banks: Vec<(Vec<u8>, Vec<i16>)>,
    songs: Vec<Vec<u8>>,
    tracks: Vec<Vec<u8>>,
    fonts: Vec<Vec<u8>>,
}

impl Sources {
    /// A real file: of a font its bank and its samples are taken, as the second program finds them.
    fn add(&mut self, path: &str) {
        let file = std::fs::read(path).unwrap_or_else(|why| panic!("{path}: {why}"));
        match riff_file::read(&file) {
            Ok(parts) => {
                let ram = samples(&file[parts.samples]);
                self.banks.push((file[parts.bank].to_vec(), ram));
            }
            Err(_) => {
                self.songs.push(file.clone());
                self.tracks.push(file);
            }
        }
    }
}

fn samples(bytes: &[u8]) -> Vec<i16> {
    bytes.chunks_exact(2).map(|pair| i16::from_le_bytes([pair[0], pair[1]])).collect()
}

/// What the trials found.
#[derive(Default)]
struct Tally {
    answers: BTreeMap<(Kind, u32), u64>,
    trials: BTreeMap<Kind, u64>,
    sounded: u64,
    slowest: (Duration, &'static str, u64),
    trial: u64,
}

impl Tally {
    /// Does a call of the library, and notes how long it took.
    fn timed<T>(&mut self, call: &'static str, act: impl FnOnce() -> T) -> T {
        let began = Instant::now();
        let answer = act();
        let took = began.elapsed();
        if took > self.slowest.0 {
            self.slowest = (took, call, self.trial);
        }
        answer
    }

    fn answered(&mut self, kind: Kind, number: u32) {
        *self.answers.entry((kind, number)).or_default() += 1;
    }
}

/// Ends the run where the two do not agree.
fn same<T: PartialEq + std::fmt::Debug>(tally: &Tally, what: &str, library: T, second: T) {
    if library != second {
        println!("soak: trial {}: {what}: the library says {library:?}, the second program {second:?}", tally.trial);
        std::process::exit(1);
    }
}

fn bits(numbers: &[f32]) -> Vec<u32> {
    numbers.iter().map(|number| number.to_bits()).collect()
}

/// Files behind their lengths, and behind `more` further numbers.
fn stored(path: &str, more: usize) -> Vec<Vec<u8>> {
    let bytes = std::fs::read(path).unwrap_or_else(|why| panic!("{path}: {why}"));
    let (mut files, mut at) = (Vec::new(), 0);
    while at + 4 <= bytes.len() {
        let length = u32::from_le_bytes(bytes[at..at + 4].try_into().expect("four bytes")) as usize;
        at += 4 + 4 * more;
        files.push(bytes[at..at + length].to_vec());
        at += length;
    }
    files
}

/// Some bytes changed; in one trial of three also cut off, left out, repeated or put in.
fn damaged(c: &mut Chance, file: &[u8]) -> Vec<u8> {
    let mut file = file.to_vec();
    let lengths = if c.once_in(3) { 0 } else { 4 };
    for _ in 0..c.from(0, 4) {
        let at = c.from(0, file.len() as i64) as usize;
        let end = (at + c.from(1, 12) as usize).min(file.len());
        match c.from(lengths, 7) {
            0 => file.truncate(at),
            1 => drop(file.drain(at..end)),
            2 => {
                let part = file[at..end].to_vec();
                drop(file.splice(at..at, part));
            }
            3 => file.insert(at, c.number() as u8),
            4 if at < file.len() => file[at] ^= 1 << c.from(0, 7),
            _ if at < file.len() => {
                let any = c.number() as u8;
                file[at] = c.pick(&[0, 1, 0x7f, 0x80, 0xff, any]);
            }
            _ => {}
        }
    }
    file
}

fn noise(c: &mut Chance, length: usize) -> Vec<i16> {
    (0..length).map(|_| c.number() as i16).collect()
}

/// A bank: its admission, its listing, some keys of its first presets, and what is heard of them.
fn bank_trial(t: &mut Tally, c: &mut Chance, bank: &[u8], ram: &[i16]) {
    let rom = noise(c, MEMORY);
    let admitted = admit(bank);
    let (kind, place) = t.timed("bank_fault", || thularek::bank_fault(bank));
    let fault = admitted.as_ref().err().map_or((0, 0), |fault| (fault.kind.number() as u32 - 20, fault.place));
    same(t, "the fault of a bank", (kind, place), fault);
    same(t, "admission", thularek::admit(bank), u32::from(admitted.is_err()));
    t.answered(Kind::Bank, if kind == 0 { 0 } else { 20 + kind });
    let row = t.timed("list", || thularek::list(bank, 0));
    let preset = admitted.as_ref().ok().and_then(|bank| list(bank, 0));
    let listed = match (&admitted, preset) {
        (Err(_), _) => (1, 0, 0, 0),
        (_, None) => (2, 0, 0, 0),
        (_, Some((program, number, next))) => (0, program, number, next as usize),
    };
    same(t, "the first preset", row, listed);
    let lent = Lent { bank: &admitted, ram, rom: &rom };
    let (mut state, mut player) = (Thularek::new(), Player::fresh(0));
    for _ in 0..c.from(1, 5) {
        let (channel, program) = (c.from(0, 2) as u8, if c.once_in(3) { c.from(0, 3) as u8 } else { row.1 as u8 });
        let (key, velocity) = (c.from(30, 100) as u8, c.from(1, 127) as u8);
        same(
            t,
            "a program",
            state.program_change(channel, program),
            player.engine.program(channel, program).err().unwrap_or(0),
        );
        let number = t.timed("note_on", || state.note_on(bank, ram, &rom, channel, key, velocity));
        let answer = player.engine.note_on(tables(), &lent, channel, key, velocity);
        same(t, "a key", (number, state.count()), answer.map_or_else(|number| (number, 0), |count| (0, count)));
    }
    heard(
        t,
        |out| (state.render(ram, &rom, out, FRAMES as u32), 0, 0),
        |out| (player.engine.render(tables(), &lent, FRAMES as u32, out).err().unwrap_or(0), 0, 0),
    );
}

/// A short render by both, with what it answers.
fn heard(
    t: &mut Tally,
    library: impl FnOnce(&mut [f32]) -> (u32, u32, u32),
    second: impl FnOnce(&mut [f32]) -> (u32, u32, u32),
) {
    let (mut ours, mut theirs) = (vec![0.5; 2 * FRAMES], vec![0.5; 2 * FRAMES]);
    let answer = t.timed("render", || library(&mut ours));
    same(t, "a render", answer, second(&mut theirs));
    same(t, "the numbers of a render", bits(&ours), bits(&theirs));
    t.sounded += u64::from(ours.iter().any(|&number| number != 0.5 && number != 0.0));
}

/// A song on the carillon: its test, its start, and two renders.
fn song_trial(t: &mut Tally, bells: &Bells, song: &[u8]) -> u32 {
    let found = midi_file::read(song);
    let fault = found.as_ref().err().map_or((0, 0), |fault| (fault.number, fault.place as u32));
    let tested = t.timed("song_test", || thularek::song_test(song));
    same(t, "the test of a song", tested, fault);
    let lent = Lent { bank: &bells.admitted, ram: &bells.ram, rom: &[] };
    let (mut state, mut player) = (Thularek::new(), Player::fresh(0));
    let started = t.timed("song_start", || state.song_start(song));
    same(t, "a start", (started, state.place()), fault);
    same(t, "a start", player.start(tables(), song).is_ok(), started == 0);
    for clock in [FRAMES as u32, 2 * FRAMES as u32] {
        heard(
            t,
            |out| (state.song_render(song, &bells.bank, &bells.ram, &[], out, clock), state.count(), state.refused()),
            |out| match player.render(tables(), &lent, song, clock, out) {
                Ok(applied) => (0, applied.events, applied.refused),
                Err(number) => (number, 0, 0),
            },
        );
    }
    same(t, "whether a song is over", state.song_is_over(), player.over());
    fault.0
}

/// The carillon's bank.
struct Bells {
    bank: Vec<u8>,
    admitted: Result<second::bank::Bank, second::bank_admission::Fault>,
    ram: Vec<i16>,
}

/// A song of several tracks: what is written for it, in some room, and that as a song.
fn tracks_trial(t: &mut Tally, c: &mut Chance, bells: &Bells, file: &[u8]) {
    let little = c.from(0, 400) as usize;
    let room = c.pick(&[66_000, 66_000, 66_000, little]);
    let mut out = vec![0x5a; room];
    let (number, size, place) = t.timed("merge", || thularek::merge(file, &mut out));
    let merged = merge_file::merge(file, room);
    let answer = merged.as_ref().map_or_else(|fault| (fault.number, 0, fault.place as u32), |song| (0, song.len(), 0));
    same(t, "a merging", (number, size, place), answer);
    let song = merged.unwrap_or_default();
    same(t, "the bytes of a merged song", &out[..size], &song[..]);
    same(t, "the bytes behind it", out[size..].iter().all(|&byte| byte == 0x5a), true);
    t.answered(Kind::Tracks, number);
    if number == 0 {
        song_trial(t, bells, &song);
    }
}

/// A SoundFont file: where its parts lie, and its bank with its samples.
fn font_trial(t: &mut Tally, c: &mut Chance, file: &[u8]) {
    let found = t.timed("font", || thularek::font(file));
    let parts =
        riff_file::read(file).map(|parts| (parts.bank, parts.samples)).map_err(|fault| (fault.number, fault.place));
    same(t, "the parts of a font", found.clone(), parts);
    t.answered(Kind::Font, found.as_ref().err().map_or(0, |fault| fault.0));
    if let Ok((bank, samples)) = found {
        bank_trial(t, c, &file[bank], &self::samples(&file[samples]));
    }
}

/// A bank by chance, whose windows lie in so much memory.
fn bank_by_chance(c: &mut Chance) -> Vec<u8> {
    let plan = chance_cases::bank(c, MEMORY as i64, 4);
    plan.bytes()
}

fn trial(t: &mut Tally, seed: u64, sources: &Sources, bells: &Bells) {
    let c = &mut Chance::new(seed.wrapping_mul(0x1_0000_0001).wrapping_add(t.trial.wrapping_mul(0x9e37_79b9)));
    let kind = c.pick(&[Kind::Bank, Kind::Bank, Kind::Song, Kind::Tracks, Kind::Font]);
    *t.trials.entry(kind).or_default() += 1;
    match kind {
        Kind::Bank => {
            if !sources.banks.is_empty() && c.once_in(4) {
                let (bank, ram) = &sources.banks[(c.number() % sources.banks.len() as u64) as usize];
                let bank = damaged(c, bank);
                return bank_trial(t, c, &bank, ram);
            }
            let (bank, ram) = (bank_by_chance(c), noise(c, MEMORY));
            let bank = damaged(c, &bank);
            bank_trial(t, c, &bank, &ram);
        }
        Kind::Song => {
            let song = pick(c, &sources.songs);
            let song = damaged(c, song);
            let number = song_trial(t, bells, &song);
            t.answered(Kind::Song, number);
        }
        Kind::Tracks => {
            let file = pick(c, &sources.tracks);
            let file = damaged(c, file);
            tracks_trial(t, c, bells, &file);
        }
        Kind::Font => {
            let file = if c.once_in(2) { font_by_chance(c) } else { pick(c, &sources.fonts).to_vec() };
            let file = damaged(c, &file);
            font_trial(t, c, &file);
        }
    }
}

fn pick<'a>(c: &mut Chance, files: &'a [Vec<u8>]) -> &'a [u8] {
    &files[(c.number() % files.len() as u64) as usize]
}

fn font_by_chance(c: &mut Chance) -> Vec<u8> {
    let samples: Vec<u8> = noise(c, MEMORY).iter().flat_map(|sample| sample.to_le_bytes()).collect();
    form(&[list_of(b"sdta", &chunk(b"smpl", &samples)), list_of(b"pdta", &bank_by_chance(c))])
}

fn main() {
    let words: Vec<String> = std::env::args().collect();
    let number = |at: usize| words.get(at).and_then(|word| word.parse().ok());
    let (Some(seed), Some(from), Some(count)) = (number(1), number(2), number(3)) else {
        eprintln!("usage: soak SEED FROM COUNT [FILE..]");
        std::process::exit(2);
    };
    let carillon = bells::bank::Carillon::cast();
    let bank = carillon.pdta();
    let bells = Bells { admitted: admit(&bank), bank, ram: carillon.memory() };
    let mut sources = Sources {
        banks: Vec::new(),
        songs: stored("crates/songs/stdin", 0),
        tracks: stored("crates/merges/stdin", 1),
        fonts: stored("crates/fonts/stdin", 0),
    };
    words[4..].iter().for_each(|path| sources.add(path));
    let mut tally = Tally::default();
    for trial_number in from..from + count {
        tally.trial = trial_number;
        trial(&mut tally, seed, &sources, &bells);
    }
    report(&tally, count);
}

fn report(t: &Tally, count: u64) {
    for (kind, trials) in &t.trials {
        let answers: Vec<String> = t
            .answers
            .iter()
            .filter(|((of, _), _)| of == kind)
            .map(|((_, number), times)| format!("{number} {times} times"))
            .collect();
        println!("{kind:?}: {trials} trials; answers: {}", answers.join(", "));
    }
    let (took, call, trial) = t.slowest;
    println!(
        "{} short renders sounded; the slowest call was a {call} of {} us, in trial {trial}",
        t.sounded,
        took.as_micros()
    );
    println!("{count} trials, the same by both");
}
