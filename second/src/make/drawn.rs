//! The voices and the runs of calls in crates/promises/proofs/Runs.antt. They were drawn by chance once, and are kept in
//! drawn.txt as they fell. A line there is
//!
//! - `voice`: bend, control 7 and control 11; the samples; channel, key and velocity; the voice's numbers; the frames
//!   before it is heard; whether it is `released` behind these or `held`. A bar stands between them;
//! - `run`: a run begins, and the lines behind it are its calls;
//! - `on`: channel, key and velocity, and behind a bar each the numbers of a layer; `off`: channel and key; `control`:
//!   channel, control and value.

use std::str::FromStr;

/// What a voice is given, in this order: frames of delay, class, the window's end, mode, loop from and to, rate, pitch,
/// pan, attenuation, frames of attack, hold and decay, sustain, frames of release. The window begins at 0 of RAM.
pub type Row = [i64; 15];

/// A voice on a channel, over a memory of few samples: so many frames of it, a release perhaps, and then it is heard.
pub struct Drawn {
    pub bend: u16,
    pub volume: u8,
    pub expression: u8,
    pub samples: Vec<i16>,
    /// Channel, key and velocity.
    pub struck: (u8, u8, u8),
    pub row: Row,
    pub before: usize,
    pub released: bool,
}

/// A call: channel, key and velocity, and the layers that the key has; channel and key; channel, control and value.
pub enum Call {
    On(u8, u8, u8, Vec<Row>),
    Off(u8, u8),
    Control(u8, u8, u8),
}

/// The numbers of a text, with blanks between them.
fn numbers<T: FromStr>(text: &str) -> Vec<T> {
    text.split_whitespace().map(|word| word.parse().ok().expect("a number of drawn.txt")).collect()
}

/// So many numbers of a text.
fn exactly<T: FromStr, const N: usize>(text: &str) -> [T; N] {
    numbers(text).try_into().ok().expect("so many numbers in drawn.txt")
}

/// The lines of drawn.txt, each as its first word and its parts between the bars.
fn lines() -> impl Iterator<Item = (&'static str, Vec<&'static str>)> {
    include_str!("drawn.txt").lines().map(|line| {
        let (word, rest) = line.split_once(' ').unwrap_or((line, ""));
        (word, rest.split('|').collect())
    })
}

pub fn voices() -> Vec<Drawn> {
    let voices = lines().filter(|(word, _)| *word == "voice");
    voices.map(|(_, parts)| drawn(&parts)).collect()
}

fn drawn(parts: &[&str]) -> Drawn {
    let [bend, volume, expression] = exactly::<u16, 3>(parts[0]);
    Drawn {
        bend,
        volume: volume as u8,
        expression: expression as u8,
        samples: numbers(parts[1]),
        struck: exactly::<u8, 3>(parts[2]).into(),
        row: exactly(parts[3]),
        before: exactly::<usize, 1>(parts[4])[0],
        released: parts[5].trim() == "released",
    }
}

pub fn runs() -> Vec<Vec<Call>> {
    let mut runs = Vec::new();
    for (word, parts) in lines().filter(|(word, _)| *word != "voice") {
        match word {
            "run" => runs.push(Vec::new()),
            _ => runs.last_mut().expect("a call stands in a run").push(call(word, &parts)),
        }
    }
    runs
}

fn call(word: &str, parts: &[&str]) -> Call {
    match word {
        "on" => {
            let [channel, key, velocity] = exactly(parts[0]);
            Call::On(channel, key, velocity, parts[1..].iter().map(|row| exactly(row)).collect())
        }
        "off" => {
            let [channel, key] = exactly(parts[0]);
            Call::Off(channel, key)
        }
        "control" => {
            let [channel, control, value] = exactly(parts[0]);
            Call::Control(channel, control, value)
        }
        _ => panic!("drawn.txt has no line '{word}'"),
    }
}
