// For tools/picture: draws a recording of the built-in demo, bells against time and loudness below, as a PNG file for the README.
//
//     picture RECORDING.wav OUT.png
//
// A row for each of the 37 bells, a column for each slice of time: the grey is the level at the bell's note, and the accent colour marks the strikes and fades
// as the note does. A bell sounds on other rows too (its hum an octave below, its nominal an octave above), so a strike is looked for where a bell's own partials
// rise together. Of the piece nothing is known here; of the bells, their notes and the ratios of four partials. Which partials, and how weak a strike may be, is
// chosen for the demo: other bells may need other numbers. The same recording gives the same bytes on every machine: floating point has only + - * / and square
// roots, in a fixed order.
use std::ops::{Add, Mul, Sub};
use std::path::{Path, PathBuf};
use std::process::ExitCode;
use std::{env, fs, io, process};

// ---- The recording

const RATE: usize = 44100;
const HEADING: usize = 44;
/// More would take much memory and show little.
const MOST_SECONDS: usize = 600;

/// The frames of a recording, left and right; or why it is none that can be drawn.
fn frames(file: &[u8]) -> Result<Vec<[i16; 2]>, &'static str> {
    let number = |at: usize| u32::from_le_bytes([file[at], file[at + 1], file[at + 2], file[at + 3]]);
    if file.len() < HEADING || !file.starts_with(b"RIFF") || &file[8..16] != b"WAVEfmt " || &file[36..40] != b"data" {
        return Err("no WAVE file with a heading of 44 bytes");
    }
    // Plain samples and two channels; frames of 4 bytes and samples of 16 bits. Any other kind has another number in one of these places.
    if [16, 20, 24, 28, 32].map(number) != [16, 0x2_0001, 44_100, 176_400, 0x10_0004] {
        return Err("not 16 bits, two channels, 44,100 a second");
    }
    let body = &file[HEADING..];
    if number(40) as usize != body.len() || body.len() % 4 != 0 || number(4) as usize != file.len() - 8 {
        return Err("its length is not what its heading says");
    }
    if body.is_empty() {
        return Err("no sound in it");
    }
    if body.len() / 4 > MOST_SECONDS * RATE {
        return Err("longer than ten minutes");
    }
    let frame = |b: &[u8]| [i16::from_le_bytes([b[0], b[1]]), i16::from_le_bytes([b[2], b[3]])];
    Ok(body.chunks_exact(4).map(frame).collect())
}

// ---- Arithmetic that is the same everywhere

const PI: f64 = 3.141592653589793;
/// A semitone, 2^(1/12).
const SEMITONE: f64 = 1.0594630943592953;

/// A complex number.
#[derive(Clone, Copy, Default)]
struct Turn {
    x: f64,
    y: f64,
}

impl Turn {
    /// The point of the unit circle at an angle, at most half a turn, by the power series.
    fn by(angle: f64) -> Turn {
        let (mut term, mut sum) = (1.0, [0.0; 2]);
        for n in 0..40 {
            let sign = if n % 4 < 2 { 1.0 } else { -1.0 };
            sum[n % 2] += sign * term;
            term = term * angle / (n + 1) as f64;
        }
        Turn { x: sum[0], y: sum[1] }
    }

    fn power(self) -> f64 {
        self.x * self.x + self.y * self.y
    }

    fn times(self, by: f64) -> Turn {
        Turn { x: self.x * by, y: self.y * by }
    }
}

impl Mul for Turn {
    type Output = Turn;
    fn mul(self, o: Turn) -> Turn {
        Turn { x: self.x * o.x - self.y * o.y, y: self.x * o.y + self.y * o.x }
    }
}

impl Add for Turn {
    type Output = Turn;
    fn add(self, o: Turn) -> Turn {
        Turn { x: self.x + o.x, y: self.y + o.y }
    }
}

impl Sub for Turn {
    type Output = Turn;
    fn sub(self, o: Turn) -> Turn {
        Turn { x: self.x - o.x, y: self.y - o.y }
    }
}

/// Ten times the common logarithm of a power, at least -200.
fn decibels(power: f64) -> f64 {
    if power < 1e-20 {
        return -200.0;
    }
    let (mut rest, mut octaves) = (power, 0.0);
    while rest >= 1.5 {
        rest /= 2.0;
        octaves += 1.0;
    }
    while rest < 0.75 {
        rest *= 2.0;
        octaves -= 1.0;
    }
    // ln x = 2 (z + z^3/3 + z^5/5 + ..) with z = (x - 1) / (x + 1), here at most a fifth.
    let z = (rest - 1.0) / (rest + 1.0);
    let (mut odd, mut sum) = (z, 0.0);
    for n in 0..12 {
        sum += odd / (2 * n + 1) as f64;
        odd = odd * z * z;
    }
    octaves * 3.010299956639812 + sum * 8.685889638065037
}

// ---- The analysis: the recording against a tone, block by block

const LOWEST: usize = 48;
const BELLS: usize = 37;
/// Frames of a block.
const BLOCK: usize = 256;
/// Tones that are done together: so many sums the machine has places for.
const TOGETHER: usize = 4;
/// The partials that tell a bell from the others, by their ratio to the note: another bell may share one or two of them, hardly all.
const PARTIALS: [f64; TOGETHER] = [1.0, 2.0, 4.166, 5.433];

/// The note of a bell in hertz.
fn note(bell: usize) -> f64 {
    let key = LOWEST + bell;
    let up = (69..key).fold(440.0, |f, _| f * SEMITONE);
    (key..69).fold(up, |f, _| f / SEMITONE)
}

/// The sums of a sound turned back by a few tones, a list for each tone. The turning goes on from block to block, so a steady tone stands still.
fn blocks(sound: &[f64], hertz: [f64; TOGETHER]) -> [Vec<Turn>; TOGETHER] {
    let step = hertz.map(|f| Turn::by(2.0 * PI * f / RATE as f64));
    let mut table = vec![[Turn { x: 1.0, y: 0.0 }; TOGETHER]; BLOCK + 1];
    for n in 0..BLOCK {
        for k in 0..TOGETHER {
            table[n + 1][k] = table[n][k] * Turn { x: step[k].x, y: -step[k].y };
        }
    }
    let mut phase = table[0];
    let mut lists = [(); TOGETHER].map(|_| Vec::with_capacity(sound.len() / BLOCK + 1));
    for block in sound.chunks(BLOCK) {
        let mut sums = [Turn::default(); TOGETHER];
        for (&s, turns) in block.iter().zip(&table) {
            for k in 0..TOGETHER {
                sums[k] = sums[k] + turns[k].times(s);
            }
        }
        for k in 0..TOGETHER {
            lists[k].push(sums[k] * phase[k]);
            phase[k] = phase[k] * table[BLOCK][k];
        }
    }
    lists
}

/// A bell's window in blocks: the neighbours, a semitone away, lie at its first zero.
fn window_length(bell: usize) -> usize {
    let frames = 2.0 / (SEMITONE - 1.0) / note(bell) * RATE as f64;
    (frames / BLOCK as f64 + 0.5) as usize
}

/// The weights of a window with soft edges; for all its frames together they add up to one.
fn window(length: usize) -> Vec<f64> {
    let step = Turn::by(2.0 * PI / (length + 1) as f64);
    let mut turn = step;
    let mut list = Vec::new();
    for _ in 0..length {
        list.push((1.0 - turn.x) / ((length + 1) * BLOCK) as f64);
        turn = turn * step;
    }
    list
}

/// The mean over a window that begins at a block, which may lie before the first.
fn mean(list: &[Turn], window: &[f64], from: isize) -> Turn {
    let at = |n: usize| usize::try_from(from + n as isize).ok().and_then(|n| list.get(n)).copied().unwrap_or_default();
    window.iter().enumerate().fold(Turn::default(), |sum, (n, &w)| sum + at(n).times(w))
}

/// A strike: the slice it falls in, and how strong it is in decibels.
struct Strike {
    column: usize,
    strength: f64,
}

/// What is heard of a bell: the level at its note in each slice, in decibels, and where its partials rise together.
struct Heard {
    levels: Vec<f64>,
    strikes: Vec<Strike>,
}

/// How much of a bell's tone comes in at each block: the windows before and behind it are compared, each partial for itself, as complex numbers, so that a
/// bell that still rings hides nothing. The fourth root of the product of the four is large only where all four are.
fn rises(means: &[Vec<Turn>; TOGETHER], length: usize) -> Vec<f64> {
    let rise = |at: usize| {
        let power = |list: &Vec<Turn>| (list[at + length] - list[at]).power();
        means.iter().map(power).product::<f64>().sqrt().sqrt()
    };
    (0..means[0].len() - length).map(rise).collect()
}

fn hear(sound: &[f64], bell: usize, slice: usize) -> Heard {
    let window = window(window_length(bell));
    let length = window.len();
    let lists = blocks(sound, PARTIALS.map(|ratio| ratio * note(bell)));
    // The mean at place n is that of the window which ends before block n.
    let ending = |list: &[Turn], n: usize| mean(list, &window, n as isize - length as isize);
    let means = lists.map(|list| (0..list.len() + length).map(|n| ending(&list, n)).collect::<Vec<Turn>>());
    let level = |column: usize| decibels(means[0][(2 * column + 1) * slice / 2 / BLOCK + length / 2].power());
    let levels = (0..sound.len().div_ceil(slice)).map(level).collect();
    let rises = rises(&means, length);
    let highest = |at: &usize| {
        let mut near = at.saturating_sub(2 * length)..(at + 2 * length + 1).min(rises.len());
        near.all(|other| rises[other] < rises[*at] || other == *at)
    };
    let strike = |at: usize| Strike { column: at * BLOCK / slice, strength: decibels(rises[at]) };
    Heard { levels, strikes: (0..rises.len()).filter(highest).map(strike).collect() }
}

// ---- The drawing

const WIDTH: usize = 1200;
const HEIGHT: usize = 480;
const LEFT: usize = 54;
const COLUMNS: usize = 1132;
/// The bells: the first line, and the lines of a row, the last of which stays empty.
const TOP: usize = 16;
const ROW: usize = 8;
const BELLS_END: usize = TOP + BELLS * ROW;
/// The loudness: from 0 dB down to the floor.
const LOUD: usize = BELLS_END + 22;
const LOUD_END: usize = LOUD + 96;
/// What is drawn reaches so many decibels down: levels from the loudest, loudness from full scale, strikes from the strongest.
const LEVEL_DEPTH: f64 = 60.0;
const LOUD_DEPTH: usize = 60;
/// In the demo the weakest strike (the tremolo's first) is 9.6 dB below the strongest, and the best of what is none 10.3.
const STRIKE_DEPTH: f64 = 10.0;
/// The accent is gone when the note has fallen by so much.
const FADE_DEPTH: f64 = 8.0;
/// Columns that a strike is drawn in, and the tint of the faintest one.
const HEAD: usize = 3;
const FAINTEST: usize = 6;
/// Seconds between two marks, where the recording is short enough.
const MARK: usize = 10;

/// The colours: greys for the levels, each with so much of the accent over it; then the others.
const GREYS: usize = 24;
const TINTS: usize = 9;
const PAGE: u8 = 0;
const GRID: u8 = (GREYS * TINTS) as u8;
const TEXT: u8 = GRID + 1;
const FILL: u8 = GRID + 2;
const EDGE: u8 = GRID + 3;
const PALE: [usize; 3] = [251, 250, 247];
const DARK: [usize; 3] = [138, 152, 175];
const ACCENT: [usize; 3] = [196, 66, 10];
const OTHERS: [[usize; 3]; 4] = [[224, 223, 218], [74, 82, 94], [176, 187, 202], [108, 124, 146]];

/// A share of one colour, the rest of the other.
fn mixed(one: [usize; 3], other: [usize; 3], part: usize, whole: usize) -> [usize; 3] {
    [0, 1, 2].map(|k| (one[k] * (whole - part) + other[k] * part + whole / 2) / whole)
}

fn palette() -> Vec<u8> {
    let grey = |n: usize| mixed(PALE, DARK, n, GREYS - 1);
    let tinted = |n: usize| mixed(grey(n % GREYS), ACCENT, n / GREYS, TINTS - 1);
    (0..GREYS * TINTS).map(tinted).chain(OTHERS).flatten().map(|part| part as u8).collect()
}

/// The letters, each in seven lines of five points.
const LETTERS: [(char, [u8; 7]); 15] = [
    ('0', [0b01110, 0b10001, 0b10001, 0b10001, 0b10001, 0b10001, 0b01110]),
    ('1', [0b00100, 0b01100, 0b00100, 0b00100, 0b00100, 0b00100, 0b01110]),
    ('2', [0b01110, 0b10001, 0b00001, 0b00010, 0b00100, 0b01000, 0b11111]),
    ('3', [0b11111, 0b00010, 0b00100, 0b00010, 0b00001, 0b10001, 0b01110]),
    ('4', [0b00010, 0b00110, 0b01010, 0b10010, 0b11111, 0b00010, 0b00010]),
    ('5', [0b11111, 0b10000, 0b11110, 0b00001, 0b00001, 0b10001, 0b01110]),
    ('6', [0b00110, 0b01000, 0b10000, 0b11110, 0b10001, 0b10001, 0b01110]),
    ('7', [0b11111, 0b00001, 0b00010, 0b00100, 0b01000, 0b01000, 0b01000]),
    ('8', [0b01110, 0b10001, 0b10001, 0b01110, 0b10001, 0b10001, 0b01110]),
    ('9', [0b01110, 0b10001, 0b10001, 0b01111, 0b00001, 0b00010, 0b01100]),
    ('-', [0b00000, 0b00000, 0b00000, 0b01110, 0b00000, 0b00000, 0b00000]),
    ('C', [0b01110, 0b10001, 0b10000, 0b10000, 0b10000, 0b10001, 0b01110]),
    ('d', [0b00001, 0b00001, 0b01101, 0b10011, 0b10001, 0b10011, 0b01101]),
    ('B', [0b11110, 0b10001, 0b10001, 0b11110, 0b10001, 0b10001, 0b11110]),
    ('s', [0b00000, 0b00000, 0b01111, 0b10000, 0b01110, 0b00001, 0b11110]),
];
/// A point of a letter is so many pixels wide and high, and a letter with the space behind it so many wide.
const POINT: usize = 2;
const LETTER: usize = 6 * POINT;

/// The picture, a colour's number for each pixel.
struct Canvas(Vec<u8>);

impl Canvas {
    /// Colours a rectangle, or only what of it is still empty.
    fn fill(&mut self, [x, y, width, height]: [usize; 4], colour: u8, empty: bool) {
        for line in y..(y + height).min(HEIGHT) {
            let row = &mut self.0[line * WIDTH..][x.min(WIDTH)..(x + width).min(WIDTH)];
            row.iter_mut().filter(|pixel| !empty || **pixel == PAGE).for_each(|pixel| *pixel = colour);
        }
    }

    /// Writes a text whose middle line is at y, and that ends before x.
    fn write(&mut self, text: &str, x: usize, y: usize) {
        let from = (x + POINT).saturating_sub(text.chars().count() * LETTER);
        for (n, letter) in text.chars().enumerate() {
            let shape = LETTERS.iter().find(|(name, _)| *name == letter).map_or([0; 7], |(_, shape)| *shape);
            let points = (0..35).filter(|k| shape[k / 5] >> (4 - k % 5) & 1 == 1);
            let corner = |k: usize| [from + n * LETTER + k % 5 * POINT, y + k / 5 * POINT - 7 * POINT / 2];
            points.map(corner).for_each(|[left, top]| self.fill([left, top, POINT, POINT], TEXT, false));
        }
    }
}

/// Which of so many steps a number in decibels is on, from nothing at the depth to all of them at the top.
fn steps(decibels: f64, top: f64, depth: f64, most: usize) -> usize {
    let part = (decibels - top + depth) / depth;
    if part <= 0.0 {
        0
    } else {
        ((part * most as f64 + 0.5) as usize).min(most)
    }
}

/// The largest of some numbers, but not so little that silence would count.
fn largest(numbers: impl Iterator<Item = f64>) -> f64 {
    numbers.fold(-100.0, f64::max)
}

/// How much of the accent each column of a bell's row has: most where a strike is, and behind it the less the further the note has fallen.
fn tints(bell: &Heard, strongest: f64) -> Vec<usize> {
    let mut tints = vec![0; bell.levels.len()];
    for strike in bell.strikes.iter().filter(|strike| strike.strength > strongest - STRIKE_DEPTH) {
        let head = FAINTEST + steps(strike.strength, strongest, STRIKE_DEPTH, TINTS - 1 - FAINTEST);
        let levels = &bell.levels[strike.column..];
        let first = largest(levels.iter().take(HEAD + 1).copied());
        let mut most = TINTS / 2;
        for (n, (tint, &level)) in tints[strike.column..].iter_mut().zip(levels).enumerate() {
            if n < HEAD {
                *tint = head;
                continue;
            }
            // Never more again: what lifts the level later is another bell's.
            most = most.min(steps(level, first, FADE_DEPTH, TINTS / 2));
            *tint = most;
        }
    }
    tints
}

fn draw_bells(canvas: &mut Canvas, heard: &[Heard]) {
    let loudest = largest(heard.iter().flat_map(|bell| bell.levels.iter().copied()));
    let strongest = largest(heard.iter().flat_map(|bell| bell.strikes.iter().map(|strike| strike.strength)));
    for (n, bell) in heard.iter().enumerate() {
        let tints = tints(bell, strongest);
        for (column, &level) in bell.levels.iter().enumerate() {
            // Squared: soft tones, of which there are many, stay in the background.
            let part = steps(level, loudest, LEVEL_DEPTH, 1000);
            let grey = (part * part * (GREYS - 1) + 500_000) / 1_000_000;
            let place = [LEFT + column, BELLS_END - (n + 1) * ROW, 1, ROW - 1];
            canvas.fill(place, (tints[column] * GREYS + grey) as u8, false);
        }
    }
}

/// The loudness of each slice, in decibels below full scale.
fn loudness(frames: &[[i16; 2]], slice: usize) -> Vec<f64> {
    let square = |&side: &i16| u64::from(side.unsigned_abs()).pow(2);
    let sum = |part: &[[i16; 2]]| part.iter().flatten().map(square).sum::<u64>() as f64;
    frames.chunks(slice).map(|part| decibels(sum(part) / (2 * part.len()) as f64 / 1073741824.0)).collect()
}

fn draw_loudness(canvas: &mut Canvas, loudness: &[f64]) {
    let height = |level: f64| steps(level, 0.0, LOUD_DEPTH as f64, LOUD_END - LOUD);
    for (column, &level) in loudness.iter().enumerate() {
        let high = height(level);
        canvas.fill([LEFT + column, LOUD_END - high, 1, high], FILL, false);
        canvas.fill([LEFT + column, LOUD_END - high, 1, high.min(2)], EDGE, false);
    }
}

fn draw_axes(canvas: &mut Canvas, slice: usize) {
    for bell in (0..BELLS).step_by(12) {
        let y = BELLS_END - bell * ROW;
        canvas.write(&format!("C{}", 3 + bell / 12), LEFT - 10, y - ROW / 2);
        canvas.fill([LEFT, y - 1, COLUMNS, 1], GRID, true);
    }
    for level in (0..=LOUD_DEPTH).step_by(20) {
        let y = LOUD + (LOUD_END - LOUD) * level / LOUD_DEPTH;
        let sign = if level > 0 { "-" } else { "" };
        canvas.write(&format!("{sign}{level}"), LEFT - 10, y);
        canvas.fill([LEFT, y, COLUMNS, 1], GRID, true);
    }
    canvas.write("dB", LEFT + COLUMNS, LOUD + 13);
    canvas.write("s", LEFT + COLUMNS, LOUD_END + 18);
    let mut mark = MARK;
    while mark * RATE / slice < 5 * LETTER {
        mark *= 2;
    }
    for second in (0..).step_by(mark).take_while(|second| second * RATE / slice < COLUMNS - 2 * LETTER) {
        let x = LEFT + second * RATE / slice;
        let text = second.to_string();
        canvas.fill([x, TOP, 1, BELLS_END - TOP], GRID, true);
        canvas.fill([x, LOUD, 1, LOUD_END + 5 - LOUD], GRID, true);
        canvas.write(&text, x + (text.len() * LETTER - POINT) / 2, LOUD_END + 18);
    }
}

fn draw(frames: &[[i16; 2]]) -> Canvas {
    let slice = frames.len().div_ceil(COLUMNS);
    let sound: Vec<f64> =
        frames.iter().map(|&[left, right]| f64::from(i32::from(left) + i32::from(right)) / 65536.0).collect();
    let heard: Vec<Heard> = (0..BELLS).map(|bell| hear(&sound, bell, slice)).collect();
    let mut canvas = Canvas(vec![PAGE; WIDTH * HEIGHT]);
    draw_bells(&mut canvas, &heard);
    draw_loudness(&mut canvas, &loudness(frames, slice));
    draw_axes(&mut canvas, slice);
    canvas
}

// ---- The PNG file

/// Bits, the lowest of a byte first.
#[derive(Default)]
struct Bits {
    bytes: Vec<u8>,
    rest: u32,
    count: u32,
}

impl Bits {
    fn put(&mut self, value: usize, count: u32) {
        self.rest |= (value as u32) << self.count;
        self.count += count;
        while self.count >= 8 {
            self.bytes.push(self.rest as u8);
            self.rest >>= 8;
            self.count -= 8;
        }
    }

    /// A Huffman code, which has its highest bit first.
    fn code(&mut self, value: usize, count: u32) {
        self.put((value as u32).reverse_bits() as usize >> (32 - count), count);
    }

    /// A byte, an end (256) or a length, by the fixed codes.
    fn symbol(&mut self, symbol: usize) {
        match symbol {
            0..=143 => self.code(symbol + 0x30, 8),
            144..=255 => self.code(symbol - 144 + 0x190, 9),
            256..=279 => self.code(symbol - 256, 7),
            _ => self.code(symbol - 280 + 0xc0, 8),
        }
    }

    /// "The same again": so many bytes, from so far back.
    fn again(&mut self, length: usize, distance: usize) {
        if length == LONGEST {
            self.symbol(285);
        } else {
            let (symbol, extra) = class(length - SHORTEST, 4);
            self.symbol(257 + symbol);
            self.put((length - SHORTEST) % (1 << extra), extra);
        }
        let (symbol, extra) = class(distance - 1, 2);
        self.code(symbol, 5);
        self.put((distance - 1) % (1 << extra), extra);
    }
}

const SHORTEST: usize = 3;
const LONGEST: usize = 258;
const FARTHEST: usize = 32768;
/// Earlier places with the same first bytes that are tried.
const TRIES: usize = 100;

/// The class of a length or distance, counted from 0, and how many of its low bits stand behind the code: classes double in size after every so many.
fn class(value: usize, many: usize) -> (usize, u32) {
    let extra = (value.max(1).ilog2()).saturating_sub(many.ilog2());
    (many * extra as usize + (value >> extra), extra)
}

/// Where the same bytes stood before: the last place for each start, and for each place the one before it.
struct Places {
    last: Vec<usize>,
    before: Vec<usize>,
}

const NOWHERE: usize = usize::MAX;

impl Places {
    fn start(data: &[u8], at: usize) -> Option<usize> {
        let bytes = data.get(at..at + SHORTEST)?;
        Some(bytes.iter().fold(0, |sum, &byte| (sum * 31 + usize::from(byte)) % 32749))
    }

    fn add(&mut self, data: &[u8], at: usize) {
        if let Some(start) = Places::start(data, at) {
            self.before[at] = self.last[start];
            self.last[start] = at;
        }
    }

    /// The longest match for what stands at a place, and how far back it is.
    fn longest(&self, data: &[u8], at: usize) -> (usize, usize) {
        let mut best = (0, 0);
        let mut place = Places::start(data, at).map_or(NOWHERE, |start| self.last[start]);
        for _ in 0..TRIES {
            if place == NOWHERE || at - place > FARTHEST {
                break;
            }
            let same = data[place..].iter().zip(&data[at..]).take(LONGEST).take_while(|(a, b)| a == b).count();
            if same > best.0 {
                best = (same, at - place);
            }
            place = self.before[place];
        }
        best
    }
}

/// The data as one block with the fixed codes, in zlib's wrapping.
fn packed(data: &[u8]) -> Vec<u8> {
    let mut places = Places { last: vec![NOWHERE; 32749], before: vec![NOWHERE; data.len()] };
    let mut bits = Bits::default();
    bits.put(0x0178, 16);
    bits.put(0b011, 3);
    let mut at = 0;
    while at < data.len() {
        let (length, distance) = places.longest(data, at);
        let taken = if length < SHORTEST {
            bits.symbol(usize::from(data[at]));
            1
        } else {
            bits.again(length, distance);
            length
        };
        (at..at + taken).for_each(|place| places.add(data, place));
        at += taken;
    }
    bits.symbol(256);
    bits.put(0, 7);
    let (a, b) = data.iter().fold((1, 0), |(a, b), &byte| {
        let a = (a + u32::from(byte)) % 65521;
        (a, (a + b) % 65521)
    });
    [bits.bytes, (b << 16 | a).to_be_bytes().to_vec()].concat()
}

/// CRC-32 as PNG and zlib have it.
fn crc(data: &[u8]) -> u32 {
    let bit = |sum: u32, _| sum >> 1 ^ if sum & 1 == 1 { 0xedb8_8320 } else { 0 };
    !data.iter().fold(!0, |sum, &byte| (0..8).fold(sum ^ u32::from(byte), bit))
}

fn chunk(name: &[u8; 4], body: &[u8]) -> Vec<u8> {
    let named = [&name[..], body].concat();
    [&(body.len() as u32).to_be_bytes()[..], &named, &crc(&named).to_be_bytes()].concat()
}

fn png(canvas: &Canvas) -> Vec<u8> {
    let size = [WIDTH as u32, HEIGHT as u32].map(u32::to_be_bytes).concat();
    // Each line begins with a 0: its pixels stand there as they are.
    let lines: Vec<u8> = canvas.0.chunks(WIDTH).flat_map(|line| [&[0], line].concat()).collect();
    [
        b"\x89PNG\r\n\x1a\n".to_vec(),
        chunk(b"IHDR", &[&size[..], &[8, 3, 0, 0, 0]].concat()),
        chunk(b"PLTE", &palette()),
        chunk(b"IDAT", &packed(&lines)),
        chunk(b"IEND", &[]),
    ]
    .concat()
}

// ---- The files

/// Writes a file beside and renames it, so that it is there whole or not at all.
fn write(path: &Path, bytes: &[u8]) -> io::Result<()> {
    let mut name = path.as_os_str().to_owned();
    name.push(format!(".part.{}", process::id()));
    let written = fs::write(&name, bytes).and_then(|()| fs::rename(&name, path));
    if written.is_err() {
        // What is left of it is of no use; that it cannot be removed either says nothing new.
        let _ = fs::remove_file(&name);
    }
    written
}

fn fail(path: &Path, why: &str) -> ExitCode {
    eprintln!("picture: {}: {why}", path.display());
    ExitCode::from(1)
}

/// The status is 1 where a file is not what it should be, and 2 for usage.
fn main() -> ExitCode {
    let arguments: Vec<PathBuf> = env::args_os().skip(1).map(PathBuf::from).collect();
    let [recording, out] = &arguments[..] else {
        eprintln!("usage: picture RECORDING.wav OUT.png");
        return ExitCode::from(2);
    };
    let file = match fs::read(recording) {
        Ok(file) => file,
        Err(error) => return fail(recording, &error.to_string()),
    };
    let frames = match frames(&file) {
        Ok(frames) => frames,
        Err(why) => return fail(recording, why),
    };
    match write(out, &png(&draw(&frames))) {
        Ok(()) => ExitCode::SUCCESS,
        Err(error) => fail(out, &error.to_string()),
    }
}
