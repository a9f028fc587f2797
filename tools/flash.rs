// For tools/flash, which says what it is about.
//
//     flash OBJECT TABLE.rt..    how many bytes of the object's read-only data are entries of the tables, and how large its code is
//
// The compiler makes of a table constants of 16 bytes, one for each few entries, in the sections .rodata*; each is looked for in the
// tables' own bytes. The last entries of a table, where they fill no 16 bytes, stand in the code. The status is 1 where a table takes
// more than it may, or is not there.
use std::path::Path;
use std::process::ExitCode;
use std::{env, fs};

/// What the tables of a file may take in all: 02's M-105 asks for this much of the gains.
const MOST: [(&str, usize); 1] = [("gain_table", 800)];

/// A constant of the source: its entries as bytes, and how many bytes each has.
struct Constant {
    name: String,
    width: usize,
    bytes: Vec<u8>,
}

/// The constants of a file, `pub const NAME: [uBITS; LENGTH] = [ENTRIES];`.
fn constants(text: &str) -> Vec<Constant> {
    let parts = text.split("pub const ").skip(1);
    let constant = |part: &str| {
        let (name, rest) = part.split_once(": [u").expect("a table has a type");
        let (bits, rest) = rest.split_once("; ").expect("a table has a length");
        let (_, rest) = rest.split_once("] = [").expect("a table has entries");
        let (entries, _) = rest.split_once("];").expect("a table ends");
        let width = bits.parse::<usize>().expect("a width in bits") / 8;
        let entry = |n: &str| n.trim().parse::<u64>().expect("an entry is a number").to_le_bytes()[..width].to_vec();
        let bytes = entries.split(',').filter(|n| !n.trim().is_empty()).flat_map(entry).collect();
        Constant { name: name.to_string(), width, bytes }
    };
    parts.map(constant).collect()
}

/// A number of so many bytes in a file, the lowest first.
fn number(data: &[u8], at: usize, bytes: usize) -> usize {
    data[at..at + bytes].iter().rev().fold(0, |n, &byte| n << 8 | usize::from(byte))
}

/// The sections of an ELF file of 64 bits that lie in it, each with its name.
fn sections(data: &[u8]) -> Vec<(String, &[u8])> {
    let (headers, size, count) = (number(data, 40, 8), number(data, 58, 2), number(data, 60, 2));
    let row = |k: usize| headers + size * k;
    let names = number(data, row(number(data, 62, 2)) + 24, 8);
    let name = |k: usize| {
        let from = names + number(data, row(k), 4);
        String::from_utf8_lossy(data[from..].split(|&byte| byte == 0).next().unwrap_or_default()).into_owned()
    };
    let body = |k: usize| {
        let (kind, at, length) =
            (number(data, row(k) + 4, 4), number(data, row(k) + 24, 8), number(data, row(k) + 32, 8));
        if kind == 8 {
            &data[..0]
        } else {
            &data[at..at + length]
        }
    };
    (0..count).map(|k| (name(k), body(k))).collect()
}

/// Whether 16 bytes are entries of the table, from the place of one of them on.
fn holds(table: &Constant, chunk: &[u8]) -> bool {
    table.bytes.windows(16).step_by(table.width).any(|entries| entries == chunk)
}

fn main() -> ExitCode {
    let arguments: Vec<String> = env::args().skip(1).collect();
    let [object, paths @ ..] = &arguments[..] else { return ExitCode::from(2) };
    let data = fs::read(object).unwrap_or_else(|error| panic!("{object}: {error}"));
    let sections = sections(&data);
    let sum = |part: &str| sections.iter().filter(|(name, _)| name.starts_with(part)).map(|(_, body)| body.len()).sum();
    let (read_only, code): (usize, usize) = (sum(".rodata"), sum(".text"));
    let chunks =
        || sections.iter().filter(|(name, _)| name.starts_with(".rodata")).flat_map(|(_, body)| body.chunks(16));
    let (mut told, mut status) = (0, ExitCode::SUCCESS);
    for path in paths {
        let text = fs::read_to_string(path).unwrap_or_else(|error| panic!("{path}: {error}"));
        let file = Path::new(path).file_stem().unwrap_or_default().to_string_lossy().into_owned();
        let mut all = 0;
        for table in constants(&text) {
            let bytes = 16 * chunks().filter(|chunk| holds(&table, chunk)).count();
            println!(
                "{bytes:8} bytes  {} ({} entries of {})",
                table.name,
                table.bytes.len() / table.width,
                table.width
            );
            all += bytes;
        }
        told += all;
        if MOST.iter().any(|&(name, most)| name == file && !(1..=most).contains(&all)) {
            println!("flash: {file} takes {all} bytes of read-only data");
            status = ExitCode::FAILURE;
        }
    }
    println!("{:8} bytes  other read-only data", read_only - told);
    println!("{code:8} bytes  code");
    status
}
