// What has to be believed: the definitions on which the contracts of everything a host may call and the statements of
// theorems rest, all the way down. A reader holds these, and no others, against the scope document.
//
//     rustc --edition 2021 -O -o target/believe tools/believe.rs && target/believe
//
// prints them file by file with their counts, and then a line for each complaint about where definitions stand; the
// status is 1 where there is one. `--check` prints totals and complaints alone, `--totals` the totals alone, `--names`
// the files of definitions that have no source file of their name, each with the reason.
// the tools share these, and each asks for a part of them
#[allow(dead_code)]
mod antt;
#[allow(dead_code)]
mod source;
#[allow(dead_code)]
mod tree;

use antt::{Place, Target};
use source::Source;
use std::collections::{BTreeMap, BTreeSet};
use std::process::ExitCode;
use tree::{Reached, Specs, Tree};

/// Files of definitions whose words no source file of their name computes. A crate's name stands for all of its files.
const NO_CODE: [(&str, &str); 28] = [
    ("arith/Floats", "what it is that a float is a fraction exactly; the code that makes such floats is voice's and engine's"),
    ("arith/Floors", "quotients rounded down: each formula that has one computes it in its own place"),
    ("arith/Lists", "counts and sums over lists: loops in several crates compute them, each its own"),
    ("arith/Within", "a bound that contracts state; nothing computes it"),
    ("bank/Admission", "the chain of the tests: the code is the crate's root, src/lib.rt"),
    ("bank/Rules", "admission said once more as rules for every record; the code does the tests of Admission"),
    ("curves/Loudness", "statements of theorems on gains; the code is that of Levels"),
    ("merge/Kept", "statements of theorems on what is written"),
    ("merge/Marks", "the score that is written; the code writes its bytes event by event, in lines"),
    ("merge/Merging", "the outcome for a file: the code is the crate's root, src/lib.rt"),
    ("promises", "statements of theorems: the crate has no code"),
    ("recitals", "statements of theorems on the player: the crate has no code"),
    ("riff/Faults", "what can be wrong with a file, case by case; the code does the tests of Form in their order"),
    ("riff/Places", "statements of theorems on where the parts of a file lie"),
    ("riff/Written", "files as they are written, for statements of theorems; nothing writes them"),
    ("smf/Behind", "statements of theorems on bytes behind the end of track"),
    ("smf/Faults", "what can be wrong with a file, case by case; the code does the tests of Head, Items and Track in their order"),
    ("smf/Reading", "statements of theorems on what the reader hands out"),
    ("smf/Songs", "the whole file: the code is the crate's root, src/lib.rt"),
    ("smf/Spelling", "files as they are written, for statements of theorems; nothing writes them"),
    ("voice/Points", "statements of theorems on the four points of a reading; the code is that of Reading"),
    ("wave/Fractions", "what an output number is and what its 16-bit number is, as fractions; the code of Pcm goes by bits"),
    ("wave/Headroom", "statements of theorems on sums that are poured at a lower level; the code is that of Lowering"),
    ("wave/Refusals", "each number in its case; the code does the tests of Headings, Pours, Recording and Playback in their order"),
    ("wave/Returned", "statements of theorems on reading what was written, and writing what was read"),
    ("wave/Sizes", "statements of theorems on what a heading says"),
    ("wave/Streams", "statements of theorems on a heading and pours"),
    ("records/Looking", "what a search finds: each search is a loop of the file that needs it"),
];

/// A check of the rooms. One that is not `on` is left out.
struct Check {
    what: &'static str,
    on: bool,
    complaints: fn(&Known) -> Vec<String>,
}

const CHECKS: [Check; 7] = [
    Check { what: "leads nowhere", on: true, complaints: leads_nowhere },
    Check { what: "believed, but in Internal", on: true, complaints: believed_in_internal },
    Check { what: "not believed", on: true, complaints: not_believed },
    Check { what: "in Internal, and in no contract", on: true, complaints: internal_in_no_contract },
    Check { what: "same name", on: true, complaints: same_name },
    Check { what: "no comment", on: true, complaints: no_comment },
    Check { what: "no source of its name", on: true, complaints: no_source },
];

/// All that the checks look at.
struct Known {
    tree: Tree,
    believed: Reached,
    in_contracts: Reached,
    lost: BTreeSet<String>,
}

impl Known {
    /// Reads the repository that it is run in.
    fn load() -> Known {
        let tree = Tree::load();
        let mut lost = Vec::new();
        let believed = tree.believed(&mut lost);
        let in_contracts = tree.cited_by_contracts(&mut lost);
        lost.extend(tree.lost.iter().cloned());
        Known { tree, believed, in_contracts, lost: lost.into_iter().collect() }
    }

    /// The places of all definitions of files that pass a test, file by file.
    fn places(&self, test: impl Fn(&Specs) -> bool) -> Vec<Place> {
        let files = self.tree.specs.iter().enumerate().filter(|(_, file)| test(file));
        files.flat_map(|(at, file)| (0..file.definitions.len()).map(move |place| (at, place))).collect()
    }

    /// The definitions to believe, in order.
    fn to_believe(&self) -> Vec<Place> {
        self.tree.to_believe(&self.believed)
    }

    /// A definition by its file and its name.
    fn label(&self, place: Place) -> String {
        format!("{}: {}", self.tree.specs[place.0].path, self.tree.definition(place).name)
    }
}

/// Names and paths that the reader of this tool could not follow: without them it would believe too little.
fn leads_nowhere(known: &Known) -> Vec<String> {
    known.lost.iter().cloned().collect()
}

/// Definitions that a reader has to believe and would not look for in Internal.
fn believed_in_internal(known: &Known) -> Vec<String> {
    let internal = known.places(Specs::internal);
    let believed = internal.into_iter().filter(|place| known.believed.definitions.contains(place));
    believed.map(|place| known.label(place)).collect()
}

/// Definitions beside Internal that no host's contract and no statement rests on, and who cites them.
fn not_believed(known: &Known) -> Vec<String> {
    let outside = known.places(|file| !file.internal());
    let others = outside.into_iter().filter(|place| !known.believed.definitions.contains(place));
    let who = |place: Place| {
        if known.in_contracts.definitions.contains(&place) {
            return "contracts inside the crates alone cite it: it belongs in Internal";
        }
        let proved = known.tree.in_proofs.contains(&Target::Definition(place));
        if proved {
            "laws and proofs alone cite it: it belongs beside them"
        } else {
            "nothing cites it"
        }
    };
    others.map(|place| format!("{} ({})", known.label(place), who(place))).collect()
}

/// Definitions in Internal that serve no contract: they are for laws, or for nothing.
fn internal_in_no_contract(known: &Known) -> Vec<String> {
    let internal = known.places(Specs::internal);
    let others = internal.into_iter().filter(|place| !known.in_contracts.definitions.contains(place));
    others.map(|place| known.label(place)).collect()
}

/// Spellings that stand for two things in two files; a data type's constructors are names too.
fn same_name(known: &Known) -> Vec<String> {
    let mut named: BTreeMap<&str, Vec<(Place, String)>> = BTreeMap::new();
    for place in known.to_believe() {
        let definition = known.tree.definition(place);
        let path = &known.tree.specs[place.0].path;
        named.entry(&definition.name).or_default().push((place, path.clone()));
        for constructor in &definition.constructors {
            let label = format!("{path} (a constructor of {})", definition.name);
            named.entry(constructor).or_default().push((place, label));
        }
    }
    let clashes = named.into_iter().filter(|(_, all)| all.iter().any(|(place, _)| place.0 != all[0].0 .0));
    let label = |all: &[(Place, String)]| all.iter().map(|(_, label)| label.as_str()).collect::<Vec<_>>().join(" and ");
    clashes.map(|(name, all)| format!("{name}: {}", label(&all))).collect()
}

/// Definitions to believe over which nothing is said.
fn no_comment(known: &Known) -> Vec<String> {
    let silent = known.to_believe().into_iter().filter(|place| known.tree.definition(*place).comment.is_empty());
    silent.map(|place| known.label(place)).collect()
}

/// The name of the source file that a file of definitions belongs to: LayerSearch to layer_search.
fn source_name(module: &str) -> String {
    let mut name = String::new();
    for (at, letter) in module.char_indices() {
        if at > 0 && letter.is_uppercase() {
            name.push('_');
        }
        name.extend(letter.to_lowercase());
    }
    name
}

/// Files of definitions with no source file of their name, unless listed above; and what is listed above for nothing.
/// The file that has the crate's name belongs to its root.
fn no_source(known: &Known) -> Vec<String> {
    let mut unused: BTreeSet<&str> = NO_CODE.iter().map(|(name, _)| *name).collect();
    let mut complaints = Vec::new();
    for file in known.tree.specs.iter().filter(|file| !file.internal()) {
        let name = source_name(&file.module);
        let is_source = |source: &&Source| {
            source.krate == file.krate && (source.module == name || source.module == "lib" && name == file.krate)
        };
        let listed = [file.krate.clone(), format!("{}/{}", file.krate, file.module)];
        if known.tree.sources.iter().find(is_source).is_none() {
            let excused = NO_CODE.iter().any(|(name, _)| listed.iter().any(|it| it == name));
            complaints.extend((!excused).then(|| format!("{}: there is no src/{name}.rt", file.path)));
            unused.retain(|name| !listed.iter().any(|it| it == name));
        }
    }
    complaints.extend(unused.iter().map(|name| format!("{name}: listed as words without code for nothing")));
    complaints
}

/// A count with its word.
fn plural(count: usize, word: &str) -> String {
    format!("{count} {word}{}", if count == 1 { "" } else { "s" })
}

/// Prints the definitions of a file, where there are any, with what is said over each.
fn print_file(known: &Known, file: usize, places: &[Place]) {
    let here: Vec<Place> = places.iter().copied().filter(|place| place.0 == file).collect();
    if here.is_empty() {
        return;
    }
    println!(
        "\n{}: {}, {} lines",
        known.tree.specs[file].path,
        plural(here.len(), "definition"),
        known.tree.lines(&here)
    );
    let width = here.iter().map(|place| known.tree.definition(*place).name.chars().count()).max().unwrap_or(0);
    for place in here {
        let definition = known.tree.definition(place);
        println!("  {:width$}  {:>2}  {}", definition.name, definition.lines, definition.comment);
    }
}

/// Prints, crate by crate, the definitions to believe and the types of the source that they speak of; then the tables.
fn print_all(known: &Known) {
    let places = known.to_believe();
    for krate in &known.tree.crates {
        for (at, file) in known.tree.specs.iter().enumerate() {
            if file.krate == *krate {
                print_file(known, at, &places);
            }
        }
        let types: Vec<&str> =
            known.believed.types.iter().filter(|(of, _)| of == krate).map(|(_, name)| name.as_str()).collect();
        if !types.is_empty() {
            println!("\ncrates/{krate}/src declares: {}", types.join(", "));
        }
    }
    println!("\nTables, made by a program and held by their proved rules, not by eye:");
    for (at, file) in known.tree.specs.iter().enumerate() {
        let names: Vec<&str> = known
            .believed
            .definitions
            .iter()
            .filter(|place| place.0 == at)
            .map(|place| known.tree.definition(*place).name.as_str())
            .collect();
        if let Some(rule) = file.table.as_ref().filter(|_| !names.is_empty()) {
            println!("  {}: {}\n    {rule}", file.path, names.join(", "));
        }
    }
}

/// Prints where the list begins, and its totals.
fn print_totals(known: &Known) {
    let places = known.to_believe();
    let files: BTreeSet<usize> = places.iter().map(|place| place.0).collect();
    let functions = known.tree.host_functions(&mut Vec::new()).len();
    println!("\nfrom the contracts of {functions} functions that a host may call, and the statements:");
    println!("in all {} definitions, {} lines, in {} files", places.len(), known.tree.lines(&places), files.len());
}

/// Prints each complaint as a line, and gives how many there are.
fn print_complaints(known: &Known) -> usize {
    let mut count = 0;
    for check in CHECKS.iter().filter(|check| check.on) {
        for complaint in (check.complaints)(known) {
            println!("believe: {}: {complaint}", check.what);
            count += 1;
        }
    }
    println!("believe: {}", plural(count, "complaint"));
    count
}

/// The status is 1 where there is a complaint, and 2 for usage or a file that cannot be read.
fn main() -> ExitCode {
    let arguments: Vec<String> = std::env::args().skip(1).collect();
    let option = arguments.first().map_or("", String::as_str);
    if arguments.len() > 1 || !["", "--check", "--totals", "--names"].contains(&option) {
        eprintln!("usage: believe [--check | --totals | --names], in the repository's root");
        return ExitCode::from(2);
    }
    if option == "--names" {
        NO_CODE.iter().for_each(|(name, reason)| println!("{name}: {reason}"));
        return ExitCode::SUCCESS;
    }
    let known = Known::load();
    if option.is_empty() {
        print_all(&known);
    }
    print_totals(&known);
    if option == "--totals" || print_complaints(&known) == 0 {
        return ExitCode::SUCCESS;
    }
    ExitCode::FAILURE
}
