// Looks whether each citation of docs/RULES.md names a definition. A citation is a name in backticks with its file behind it in
// brackets: `gain_of` (curves/Levels) is the definition `gain_of` in crates/curves/specs/Levels.antt. A line may end between the two.
//
//     rustc --edition 2021 -o target/rules tools/rules.rs && target/rules
//
// is run from the root of the repository and prints the number of citations. The status is 1, with a line for each complaint, where
// a citation names nothing or a file is cited without a name, and where there is no citation at all.
use std::fs;
use std::process::ExitCode;

const PAGE: &str = "docs/RULES.md";
/// Words that may stand in front of a definition's name.
const MARKS: [&str; 3] = ["pub", "abbrev", "unfoldable"];

/// A file that is cited, as `crate/File`, with its line, and the name in front of it, if there is one.
struct Citation<'a> {
    line: usize,
    name: Option<&'a str>,
    file: &'a str,
}

/// Whether what stands in brackets is a crate and a file of its definitions.
fn is_file(text: &str) -> bool {
    let is_word = |word: &str| word.chars().all(|c| c.is_ascii_alphanumeric() || c == '_');
    let (krate, file) = text.split_once('/').unwrap_or_default();
    krate.starts_with(char::is_lowercase) && file.starts_with(char::is_uppercase) && is_word(krate) && is_word(file)
}

/// The name in backticks at the end of what stands in front of a bracket.
fn name_before(text: &str) -> Option<&str> {
    let (_, name) = text.trim_end().strip_suffix('`')?.rsplit_once('`')?;
    (!name.is_empty() && !name.contains(char::is_whitespace)).then_some(name)
}

/// All citations of a page, in order.
fn citations(page: &str) -> Vec<Citation<'_>> {
    let brackets = page.match_indices('(').filter_map(|(at, _)| Some((at, page[at + 1..].split_once(')')?.0)));
    let files = brackets.filter(|(_, file)| is_file(file));
    let cited = files.map(|(at, file)| (&page[..at], file));
    cited.map(|(front, file)| Citation { line: front.lines().count(), name: name_before(front), file }).collect()
}

/// Whether a line begins a definition: `name :`, `data name` or `record name`.
fn defines(line: &str, name: &str) -> bool {
    let words: Vec<&str> = line.split_whitespace().skip_while(|word| MARKS.contains(word)).take(2).collect();
    words == [name, ":"] || words == ["data", name] || words == ["record", name]
}

/// What is wrong with a citation.
fn complaint(Citation { line, name, file }: &Citation) -> Option<String> {
    let Some(name) = name else { return Some(format!("{PAGE}:{line}: no name in front of ({file})")) };
    let path = format!("crates/{}.antt", file.replace('/', "/specs/"));
    let text = fs::read_to_string(&path).unwrap_or_default();
    (!text.lines().any(|line| defines(line, name))).then(|| format!("{PAGE}:{line}: {name} is not defined in {path}"))
}

fn main() -> ExitCode {
    let page = fs::read_to_string(PAGE).unwrap_or_default();
    let cited = citations(&page);
    let complaints: Vec<String> = cited.iter().filter_map(complaint).collect();
    complaints.iter().for_each(|complaint| println!("rules: {complaint}"));
    if complaints.is_empty() {
        println!("rules: {} citations", cited.len());
    }
    ExitCode::from(u8::from(!complaints.is_empty() || cited.is_empty()))
}
