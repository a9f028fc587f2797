// The counts that README.md and docs/MAP.md state, from the tree.
//
//     rustc --edition 2021 -O -o target/counts tools/counts.rs && target/counts
//
// prints each as a line `KEY VALUE`. `--check FILE..` complains, with status 1, where a sentence or a row of the table of
// crates has another number, or stands in none of the files; `--write FILE..` puts the right numbers in.
// the tools share these, and each asks for a part of them
#[allow(dead_code)]
mod antt;
#[allow(dead_code)]
mod source;
#[allow(dead_code)]
mod tree;

use source::{files, read};
use std::ops::Range;
use std::process::ExitCode;
use tree::Tree;

/// The sentences that have counts, each in braces by its key. A line may end wherever a space stands. One whose count the
/// tree no longer has is not asked for.
const SENTENCES: [&str; 8] = [
    "The {crates} crates, each with its functions and the must-fail changes",
    "all {functions} functions of all crates",
    "{source-lines} lines of code, {definition-lines} of definitions (tables counted in neither), {proof-lines} of laws and proofs",
    "{changes} must-fail changes in {edits} edits",
    "{cases} cases with {calls} calls, {songs} songs with {song-lines} lines, {waves} waves written or read, {fonts} SoundFont files, {merges} songs to be merged, {damaged-cases} damaged inputs, {values} values of the tables and steps",
    "the voices of {struck-cases} cases of struck keys",
    "It has {tests} tests of its own",
    "the {believed-definitions} definitions, {believed-lines} lines, that `tools/believe` lists",
];

/// A place of a text where a count stands, and the count's key.
type Place = (Range<usize>, String);

/// Counts by their keys, in the order in which they are printed.
struct Counts(Vec<(String, usize)>);

impl Counts {
    /// One count more.
    fn add(&mut self, key: &str, value: usize) {
        self.0.push((key.to_string(), value));
    }

    /// A count as README.md writes it, if there is one of that key.
    fn text(&self, key: &str) -> Option<String> {
        self.0.iter().find(|(name, _)| name == key).map(|(_, value)| with_commas(*value))
    }

    /// Whether there are all counts of a sentence.
    fn has_all(&self, sentence: &str) -> bool {
        sentence.split('{').skip(1).filter_map(|rest| rest.split('}').next()).all(|key| self.text(key).is_some())
    }
}

/// A number as README.md writes it: 20,653.
fn with_commas(number: usize) -> String {
    let digits = number.to_string();
    let mut text = String::new();
    for (at, digit) in digits.char_indices() {
        if at > 0 && (digits.len() - at) % 3 == 0 {
            text.push(',');
        }
        text.push(digit);
    }
    text
}

/// The lines of all files of some folders that are not blank; files that a program makes are left out.
fn lines_of(crates: &[String], folder: &str, ending: &str) -> usize {
    let paths = crates.iter().flat_map(|krate| files(&format!("crates/{krate}/{folder}"), ending));
    let lines = |text: String| {
        let made = text.lines().take(5).any(|line| line.contains("Made by:"));
        if made {
            0
        } else {
            text.lines().filter(|line| !line.trim().is_empty()).count()
        }
    };
    paths.map(|path| lines(read(path))).sum()
}

/// How many lines of the files of a folder with an ending pass a test.
fn lines_that(folder: &str, ending: &str, passes: impl Fn(&str) -> bool) -> usize {
    files(folder, ending).iter().map(|path| read(path).lines().filter(|line| passes(line)).count()).sum()
}

/// Functions, lines, and the definitions to believe.
fn count_sources(tree: &Tree, counts: &mut Counts) {
    let functions = |krate: &str| -> usize {
        tree.sources.iter().filter(|source| source.krate == krate).map(|source| source.functions.len()).sum()
    };
    counts.add("crates", tree.crates.len());
    counts.add("functions", tree.crates.iter().map(|krate| functions(krate)).sum());
    for krate in &tree.crates {
        counts.add(&format!("functions.{krate}"), functions(krate));
    }
    counts.add("source-lines", lines_of(&tree.crates, "src", "rt"));
    counts.add("definition-lines", lines_of(&tree.crates, "specs", "antt"));
    counts.add("proof-lines", lines_of(&tree.crates, "proofs", "antt"));
    let believed = tree.to_believe(&tree.believed(&mut Vec::new()));
    counts.add("believed-definitions", believed.len());
    counts.add("believed-lines", tree.lines(&believed));
}

/// Must-fail edits and their changes.
fn count_changes(crates: &[String], counts: &mut Counts) {
    let folder = |krate: &str| format!("crates/{krate}/must-fail");
    let changes = |krate: &str| lines_that(&folder(krate), "edit", |line| line.starts_with("name: "));
    counts.add("edits", crates.iter().map(|krate| files(&folder(krate), "edit").len()).sum());
    counts.add("changes", crates.iter().map(|krate| changes(krate)).sum());
    for krate in crates {
        counts.add(&format!("changes.{krate}"), changes(krate));
    }
}

/// What is run. A trace has a line for the name of each case and a line for each call.
fn count_runs(counts: &mut Counts) {
    let trace = read("crates/drive/stdout");
    let names = trace.lines().filter(|line| line.starts_with("t ")).count();
    counts.add("cases", names);
    counts.add("calls", trace.lines().count() - names);
    let lines = read("crates/songs/stdout");
    counts.add("songs", lines.lines().filter(|line| line.split(' ').count() == 2).count());
    counts.add("song-lines", lines.lines().count());
    counts.add("waves", read("crates/waves/stdout").lines().count());
    counts.add("fonts", read("crates/fonts/stdout").lines().count());
    counts.add("merges", read("crates/merges/stdout").lines().count());
    let damaged = ["drive", "record", "songs", "fonts", "merges", "waves"].map(|program| files(&format!("crates/{program}/bad"), "case").len());
    counts.add("damaged-cases", damaged.iter().sum());
    counts.add("values", read("crates/numbers/stdout").lines().count());
    if let Ok(lines) = std::fs::read_to_string("crates/strike/stdout") {
        counts.add("struck-cases", lines.lines().filter(|line| line.starts_with("t ")).count());
    }
    let is_test = |line: &str| line.trim() == "#[test]";
    counts.add("tests", lines_that("second/src", "rs", is_test) + lines_that("second/tests", "rs", is_test));
}

/// All counts.
fn counts_of(tree: &Tree) -> Counts {
    let mut counts = Counts(Vec::new());
    count_sources(tree, &mut counts);
    count_changes(&tree.crates, &mut counts);
    count_runs(&mut counts);
    counts
}

/// How long the number at the front of a text is; a comma belongs to it where a digit follows.
fn number_length(text: &str) -> usize {
    let bytes = text.as_bytes();
    let digit = |at: usize| bytes.get(at).is_some_and(u8::is_ascii_digit);
    (0..).find(|&at| !digit(at) && !(at > 0 && bytes.get(at) == Some(&b',') && digit(at + 1))).unwrap_or(0)
}

/// How long some words are at the front of a text, whatever blank space stands between them there.
fn words_length(text: &str, words: &str) -> Option<usize> {
    let mut rest = text;
    for letter in words.chars() {
        rest = match letter {
            ' ' => rest.strip_prefix(char::is_whitespace)?.trim_start(),
            _ => rest.strip_prefix(letter)?,
        };
    }
    Some(text.len() - rest.len())
}

/// The counts of a sentence that stands at a place of a text.
fn sentence_at(text: &str, from: usize, sentence: &str) -> Option<Vec<Place>> {
    let (mut at, mut rest, mut found) = (from, sentence, Vec::new());
    while !rest.is_empty() {
        let (words, behind) = rest.split_at(rest.find('{').unwrap_or(rest.len()));
        at += words_length(&text[at..], words)?;
        rest = behind;
        if let Some((key, behind)) = rest.strip_prefix('{').and_then(|rest| rest.split_once('}')) {
            let length = Some(number_length(&text[at..])).filter(|length| *length > 0)?;
            found.push((at..at + length, key.to_string()));
            at += length;
            rest = behind;
        }
    }
    Some(found)
}

/// The counts of a sentence, wherever it first stands in a text. It does not begin inside a number.
fn sentence_in(text: &str, sentence: &str) -> Option<Vec<Place>> {
    let inside = |at: usize| text[..at].ends_with(|c: char| c.is_ascii_digit() || c == ',');
    let starts = text.char_indices().map(|(at, _)| at).filter(|&at| !inside(at));
    starts.into_iter().find_map(|at| sentence_at(text, at, sentence))
}

/// The two counts of a crate's row of the table: its last two cells.
fn row_of(text: &str, krate: &str) -> Option<[Place; 2]> {
    let start = text.find(&format!("\n| `{krate}` |"))? + 1;
    let end = start + text[start..].find('\n').unwrap_or(text.len() - start);
    let bars: Vec<usize> = text[start..end].match_indices('|').map(|(at, _)| start + at).collect();
    let cell = |from_end: usize, key: &str| {
        let bar = bars.len().checked_sub(from_end)?;
        let inside = &text[bars[bar] + 1..bars[bar + 1]];
        let begin = bars[bar] + 1 + inside.len() - inside.trim_start().len();
        Some((begin..begin + inside.trim().len(), format!("{key}.{krate}")))
    };
    Some([cell(3, "functions")?, cell(2, "changes")?])
}

/// All places of a text where a count stands.
fn places_in(text: &str, crates: &[String], counts: &Counts) -> Vec<Place> {
    let asked = SENTENCES.into_iter().filter(|sentence| counts.has_all(sentence));
    let sentences = asked.filter_map(|sentence| sentence_in(text, sentence)).flatten();
    sentences.chain(crates.iter().filter_map(|krate| row_of(text, krate)).flatten()).collect()
}

/// A complaint for each sentence and row that stands in no text, and for each row too many.
fn missing_in(texts: &[String], crates: &[String], counts: &Counts) -> Vec<String> {
    let mut complaints = Vec::new();
    for sentence in SENTENCES.into_iter().filter(|sentence| counts.has_all(sentence)) {
        if texts.iter().all(|text| sentence_in(text, sentence).is_none()) {
            complaints.push(format!("no file says '{sentence}'"));
        }
    }
    for krate in crates.iter().filter(|krate| texts.iter().all(|text| row_of(text, krate).is_none())) {
        complaints.push(format!("no file has a row for crate {krate}"));
    }
    let rows = texts.iter().flat_map(|text| text.lines()).filter_map(|line| line.strip_prefix("| `")?.split('`').next());
    for name in rows.filter(|name| !crates.iter().any(|krate| krate == name)) {
        complaints.push(format!("there is a row for {name}, which is no crate"));
    }
    complaints
}

/// A text with the right counts, and a complaint for each that was wrong.
fn righted(file: &str, mut text: String, crates: &[String], counts: &Counts) -> (String, Vec<String>) {
    let mut places = places_in(&text, crates, counts);
    places.sort_by_key(|(range, _)| std::cmp::Reverse(range.start));
    let mut complaints = Vec::new();
    for (range, key) in places {
        let right = counts.text(&key).unwrap_or_else(|| format!("no count '{key}'"));
        if text[range.clone()] != right {
            complaints.push(format!("{file} says {} for {key}; the tree has {right}", &text[range.clone()]));
        }
        text.replace_range(range, &right);
    }
    (text, complaints)
}

/// Complains of each wrong number of some files, or puts the right ones in; gives how many complaints there are.
fn hold(files: &[&str], write: bool) -> usize {
    let tree = Tree::load();
    let counts = counts_of(&tree);
    let texts: Vec<String> = files.iter().map(read).collect();
    let mut complaints = missing_in(&texts, &tree.crates, &counts);
    for (file, text) in files.iter().zip(texts) {
        let (right, wrong) = righted(file, text, &tree.crates, &counts);
        match write {
            false => complaints.extend(wrong),
            true if std::fs::write(file, right).is_err() => complaints.push(format!("{file} cannot be written")),
            true => {}
        }
    }
    complaints.iter().for_each(|complaint| println!("counts: {complaint}"));
    complaints.len()
}

/// The status is 1 where there is a complaint, and 2 for usage or a file that cannot be read.
fn main() -> ExitCode {
    let arguments: Vec<String> = std::env::args().skip(1).collect();
    let words: Vec<&str> = arguments.iter().map(String::as_str).collect();
    let complaints = match words[..] {
        [] => {
            let counts = counts_of(&Tree::load());
            counts.0.iter().for_each(|(key, value)| println!("{key} {value}"));
            0
        }
        ["--check", ref files @ ..] if !files.is_empty() => hold(files, false),
        ["--write", ref files @ ..] if !files.is_empty() => hold(files, true),
        _ => {
            eprintln!("usage: counts [--check FILE.. | --write FILE..], in the repository's root");
            return ExitCode::from(2);
        }
    };
    ExitCode::from(u8::from(complaints > 0))
}
