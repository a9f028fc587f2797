// For tools/grain, which says what it is about.
//
//     grain PLAYER    PLAYER plays a case from standard input and writes a WAVE file, as crates/record does
//
// The frequency that the engine gives is known: its step is a whole number of 2^-24 samples. So the sine is found by least squares at that frequency, with a
// constant (rounding down lowers all by half a unit, which nobody hears), and what is left over is the noise.
use std::env;
use std::f64::consts::TAU;
use std::io::Write;
use std::process::{Command, ExitCode, Stdio};

/// Samples of the loop. Each sine has a whole number of periods in it.
const LOOP: u32 = 1021;
/// Frames of a render, and how many renders; the first is not looked at.
const FRAMES: u32 = 4096;
const RENDERS: u32 = 17;
/// Semitones from the sample's own key to the struck one.
const UP: u8 = 18;
const FULL: f64 = 32767.0;

/// The step in 2^-24 samples, by 01's rule for 1,800 = 1,200 * 1 + 600 cents at 44,100: floor(T / 2^(6 - 1)), where T is the largest whole number with
/// T^1200 <= 2^(600 + 36,000), that is T^2 <= 2^61.
fn step() -> u64 {
    let mut t: u64 = 1 << 30;
    for bit in (0..30).rev() {
        let more = t | 1 << bit;
        if more * more <= 1 << 61 {
            t = more;
        }
    }
    t >> 5
}

/// A sine by its periods in the loop, and whether the loop begins at the window's start: then nothing stands before the loop's first sample.
struct Sine {
    periods: u32,
    bare: bool,
}

impl Sine {
    /// At a place of the loop, in 2^-24 samples.
    fn phase(&self, place: u64) -> f64 {
        let whole = u64::from(LOOP) << 24;
        let part = u128::from(place) * u128::from(self.periods) % u128::from(whole);
        part as f64 / whole as f64 * TAU
    }

    fn start(&self) -> u32 {
        if self.bare {
            0
        } else {
            LOOP
        }
    }

    /// The window's samples; the sine does not begin at a zero, so that what stands before it counts.
    fn samples(&self) -> Vec<i16> {
        let sample = |i: u32| (FULL * (self.phase(u64::from(i) << 24) + 1.0).sin()).round() as i16;
        (0..self.start() + LOOP).map(sample).collect()
    }

    fn hertz(&self) -> f64 {
        44100.0 * f64::from(self.periods) / f64::from(LOOP)
    }
}

fn chunk(name: &str, records: &[Vec<u8>]) -> Vec<u8> {
    let body = records.concat();
    [name.as_bytes(), &(body.len() as u32).to_le_bytes(), &body].concat()
}

fn shorts(numbers: &[i32]) -> Vec<u8> {
    numbers.iter().flat_map(|&n| (n as u16).to_le_bytes()).collect()
}

/// A record with no name, filled up with zeros.
fn unnamed(numbers: &[u8], length: usize) -> Vec<u8> {
    let mut record = [&[0; 20], numbers].concat();
    record.resize(length, 0);
    record
}

/// One preset of one instrument of one looped sample at key 60, all of it on the left.
fn bank(sine: &Sine) -> Vec<u8> {
    let generators = [shorts(&[17, -500]), shorts(&[54, 1]), shorts(&[53, 0]), shorts(&[0, 0])];
    let places = [0, sine.start() + LOOP, sine.start(), sine.start() + LOOP, 44100];
    let header = [places.iter().flat_map(|n| n.to_le_bytes()).collect(), vec![60, 0, 0, 0, 1, 0]].concat();
    [
        chunk("phdr", &[unnamed(&[], 38), unnamed(&[0, 0, 0, 0, 1], 38)]),
        chunk("pbag", &[shorts(&[0, 0]), shorts(&[1, 0])]),
        chunk("pmod", &[vec![0; 10]]),
        chunk("pgen", &[shorts(&[41, 0]), shorts(&[0, 0])]),
        chunk("inst", &[unnamed(&[0, 0], 22), unnamed(&[1, 0], 22)]),
        chunk("ibag", &[shorts(&[0, 0]), shorts(&[3, 0])]),
        chunk("imod", &[vec![0; 10]]),
        chunk("igen", &generators),
        chunk("shdr", &[unnamed(&header, 46), unnamed(&[], 46)]),
    ]
    .concat()
}

/// The case: bank and samples are lent, control 7 is at its highest, and one key is struck at the highest velocity.
fn case(sine: &Sine) -> Vec<u8> {
    let (bank, samples) = (bank(sine), sine.samples());
    let mut case = [b"B", &(bank.len() as u32).to_le_bytes()[..], &bank].concat();
    case.extend([b"M", &(samples.len() as u32).to_le_bytes()[..]].concat());
    case.extend(samples.iter().flat_map(|n| n.to_le_bytes()));
    case.extend([b'c', 0, 7, 127, b'n', 0, 60 + UP, 127]);
    for k in 1..=RENDERS {
        case.extend([b"r", &(k * FRAMES).to_le_bytes()[..], &(2 * FRAMES).to_le_bytes()].concat());
    }
    case
}

/// The left side of what the player makes of a case, behind the first render.
fn played(player: &str, case: &[u8]) -> Vec<f64> {
    let piped = Command::new(player).stdin(Stdio::piped()).stdout(Stdio::piped()).spawn();
    let mut child = piped.unwrap_or_else(|error| panic!("{player}: {error}"));
    child.stdin.take().expect("it has an input").write_all(case).expect("it reads the case");
    let file = child.wait_with_output().expect("it ends").stdout;
    assert_eq!(file.len(), 44 + (4 * FRAMES * RENDERS) as usize, "the player wrote another number of frames");
    let left = |frame: &[u8]| f64::from(i16::from_le_bytes([frame[0], frame[1]]));
    file[44..].chunks(4).skip(FRAMES as usize).map(left).collect()
}

/// The three unknowns of three equations.
fn solved(mut rows: [[f64; 4]; 3]) -> [f64; 3] {
    for k in 0..3 {
        let pivot = rows[k];
        for (j, row) in rows.iter_mut().enumerate() {
            if j != k {
                let times = row[k] / pivot[k];
                row.iter_mut().zip(pivot).for_each(|(x, y)| *x -= times * y);
            }
        }
    }
    [0, 1, 2].map(|k| rows[k][3] / rows[k][k])
}

/// How far the sine lies below full, and all else below the sine, in dB.
fn measured(sine: &Sine, frames: &[f64]) -> (f64, f64) {
    let parts = |k: usize| {
        let angle = sine.phase(k as u64 * step());
        [angle.sin(), angle.cos(), 1.0]
    };
    let mut rows = [[0.0; 4]; 3];
    for (k, &x) in frames.iter().enumerate() {
        let [a, b, c] = parts(k);
        for (row, y) in rows.iter_mut().zip([a, b, c]) {
            row.iter_mut().zip([a, b, c, x]).for_each(|(sum, z)| *sum += y * z);
        }
    }
    let found = solved(rows);
    let left = |(k, &x): (usize, &f64)| {
        let fitted: f64 = parts(k).iter().zip(found).map(|(y, z)| y * z).sum();
        (x - fitted).powi(2)
    };
    let noise = frames.iter().enumerate().map(left).sum::<f64>() / frames.len() as f64;
    let power = (found[0].powi(2) + found[1].powi(2)) / 2.0;
    (10.0 * (FULL.powi(2) / 2.0 / power).log10(), 10.0 * (power / noise).log10())
}

fn main() -> ExitCode {
    let arguments: Vec<String> = env::args().skip(1).collect();
    let [player] = &arguments[..] else { return ExitCode::from(2) };
    let ratio = step() as f64 / f64::from(1 << 24);
    println!("   from Hz     to Hz  sine below full, dB  noise below the sine, dB  that of an exact sine");
    let sines = [(5, false), (12, false), (46, false), (116, false), (12, true), (46, true)];
    for sine in sines.map(|(periods, bare)| Sine { periods, bare }) {
        let frames = played(player, &case(&sine));
        let exact = |k: usize| (FULL * (sine.phase(k as u64 * step()) + 1.0).sin()).floor();
        let (below, noise) = measured(&sine, &frames);
        let (_, least) = measured(&sine, &(0..frames.len()).map(exact).collect::<Vec<f64>>());
        let remark = if sine.bare { "  (the loop begins at the window's start)" } else { "" };
        let below = (below * 1000.0).round() / 1000.0 + 0.0; // not -0
        println!("{:10.1}{:10.1}{below:21.3}{noise:26.2}{least:23.2}{remark}", sine.hertz(), sine.hertz() * ratio);
    }
    ExitCode::SUCCESS
}
