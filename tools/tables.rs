// Makes the tables of crate curves from their rules in document 01, "Tables and steps".
//
//     rustc -O -o target/tables tools/tables.rs && target/tables .
//
// writes them into the repository at `.`: for each table the constant of the source and the list of the definitions.
// Given another folder it writes there, with the same names, to be compared.
use std::fmt::Write;
use std::path::Path;

/// A whole number, 32 bits to a digit, the lowest first; the highest is not 0.
#[derive(Clone, PartialEq, Eq)]
struct Whole(Vec<u32>);

impl Whole {
    fn from(mut n: u64) -> Whole {
        let mut digits = Vec::new();
        while n > 0 {
            digits.push(n as u32);
            n >>= 32;
        }
        Whole(digits)
    }

    fn times(&self, other: &Whole) -> Whole {
        let mut digits = vec![0; self.0.len() + other.0.len()];
        for (i, &a) in self.0.iter().enumerate() {
            let mut carry = 0;
            for (j, &b) in other.0.iter().enumerate() {
                let sum = u64::from(a) * u64::from(b) + u64::from(digits[i + j]) + carry;
                digits[i + j] = sum as u32;
                carry = sum >> 32;
            }
            digits[i + other.0.len()] = carry as u32;
        }
        while digits.last() == Some(&0) {
            digits.pop();
        }
        Whole(digits)
    }

    fn power(base: u64, exponent: u32) -> Whole {
        let mut result = Whole::from(1);
        for bit in (0..32).rev() {
            result = result.times(&result);
            if exponent >> bit & 1 == 1 {
                result = result.times(&Whole::from(base));
            }
        }
        result
    }

    fn at_most(&self, other: &Whole) -> bool {
        let lengths = self.0.len().cmp(&other.0.len());
        lengths.then_with(|| self.0.iter().rev().cmp(other.0.iter().rev())).is_le()
    }
}

/// The largest number that passes a test which all below it pass too, looked for from a guess.
fn largest(guess: u64, passes: impl Fn(u64) -> bool) -> u64 {
    let mut n = guess;
    while !passes(n) {
        n -= 1;
    }
    while passes(n + 1) {
        n += 1;
    }
    n
}

/// Entry i: the largest T with T^1200 <= 2^(i + 36,000).
fn octaves() -> Vec<u64> {
    let entry = |i: u32| {
        let limit = Whole::power(2, i + 36_000);
        let guess = 2f64.powf(30.0 + f64::from(i) / 1_200.0);
        largest(guess as u64, |t| Whole::power(t, 1_200).at_most(&limit))
    };
    (0..1_200).map(entry).collect()
}

/// Entry a, of those that are kept: the largest G with G^200 * 10^a <= 2^4,800. (Each further 200 cB divide by ten.)
fn gains() -> Vec<u64> {
    let limit = Whole::power(2, 4_800);
    let entry = |a: u32| {
        let by = Whole::power(10, a);
        let guess = 2f64.powi(24) / 10f64.powf(f64::from(a) / 200.0);
        largest(guess as u64, |g| Whole::power(g, 200).times(&by).at_most(&limit))
    };
    (0..200).map(entry).collect()
}

/// The entry of v, from 1: the largest a with 10^a * v^400 <= 127^400.
fn velocities() -> Vec<u64> {
    let limit = Whole::power(127, 400);
    let entry = |v: u64| {
        let by = Whole::power(v, 400);
        largest(0, |a| Whole::power(10, a as u32).times(&by).at_most(&limit))
    };
    (1..=127).map(entry).collect()
}

/// The most letters of a line of the source.
const WIDTH: usize = 99;
const COMMAND: &str = "rustc -O -o target/tables tools/tables.rs && target/tables .";

/// A constant of the source, in lines as full as the layout of the sources has them.
fn constant(name: &str, width: &str, entries: &[u64]) -> String {
    let mut text = format!("pub const {name}: [{width}; {}] = [\n", entries.len());
    let mut line = String::new();
    for n in entries {
        let entry = format!(" {n},");
        if line.len() + entry.len() > WIDTH - 3 {
            writeln!(text, "   {line}").unwrap();
            line.clear();
        }
        line += &entry;
    }
    writeln!(text, "   {line}\n];").unwrap();
    text
}

/// A file of the source: its head, and its constants.
fn source(rule: &str, constants: &[String]) -> String {
    format!("// {rule}\n// Made by: {COMMAND}\n{}", constants.join("\n"))
}

/// The lists of the definitions, in parts small enough to be tested by one computation each.
fn lists(rule: &str, name: &str, size: usize, entries: &[u64]) -> String {
    let mut text = format!("-- {rule}\n-- Made by: {COMMAND}\nuse Rattle.std.specs.Prelude.{{List, [], ◌∷◌, ℕ}}\n");
    for (k, part) in entries.chunks(size).enumerate() {
        let rows: Vec<String> = part.chunks(10).map(|row| row.iter().map(|n| format!("{n} ∷ ")).collect()).collect();
        writeln!(text, "\nabbrev pub {name}{k} : List ℕ\n{name}{k} =\n    {}[]", rows.join("\n    ")).unwrap();
    }
    text.replace(" \n", "\n")
}

fn main() {
    let Some(root) = std::env::args().nth(1) else {
        eprintln!("tables FOLDER: writes crates/curves's tables below FOLDER");
        std::process::exit(2);
    };
    let write = |path: &str, text: String| {
        let path = Path::new(&root).join("crates/curves").join(path);
        let made = path.parent().map_or(Ok(()), std::fs::create_dir_all);
        if let Err(e) = made.and_then(|()| std::fs::write(&path, text)) {
            eprintln!("tables: {}: {e}", path.display());
            std::process::exit(1);
        }
    };
    let (octaves, gains, velocities) = (octaves(), gains(), velocities());
    let with_control = [vec![960], velocities.clone()].concat();

    let rule = "The octave table: entry i is the largest T with T^1200 <= 2^(i + 36,000).";
    write("src/octave_table.rt", source(rule, &[constant("OCTAVES", "u32", &octaves)]));
    write("specs/OctaveTable.antt", lists(rule, "octaves", 150, &octaves));

    let rule = "The gains that are kept: entry a is the largest G with G^200 * 10^a <= 2^4,800.";
    let highs: Vec<u64> = gains.iter().map(|g| (g - 1) / 256).collect();
    let lows: Vec<u64> = gains.iter().map(|g| (g - 1) % 256).collect();
    write(
        "src/gain_table.rt",
        source(
            &format!("{rule} Each has three bytes here: G - 1 is 256 times its high part and its low part added."),
            &[constant("HIGHS", "u16", &highs), constant("LOWS", "u8", &lows)],
        ),
    );
    write("specs/GainTable.antt", lists(rule, "gains", 200, &gains));

    let rule = "The velocity table: the largest a with 10^a * v^400 <= 127^400, for v from 1";
    write(
        "src/velocity_table.rt",
        source(&format!("{rule}; entry 0 is a control's 0."), &[constant("VELOCITIES", "u16", &with_control)]),
    );
    write(
        "specs/VelocityTable.antt",
        lists(&format!("{rule}."), "velocities", 127, &velocities),
    );
}
