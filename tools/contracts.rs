// Holds the contracts in crates/*/src to what is said of them elsewhere, so that none gets weaker unseen.
//
//     rustc --edition 2021 -o target/contracts tools/contracts.rs && target/contracts
//
// prints a line for each complaint, and then the counts; the status is 1 where there is a complaint. It complains about
//
// - a public function whose contract leaves something open: it does not equate the answer (or each field of it), and what
//   each buffer that is lent to be written holds at the exit, with a text that names neither. On this the theorems
//   EquationSettles and EquationsSettle rest. docs/CONTRACTS.md, "Exceptions", names those that may;
// - an `impl From` whose ghost `from_gives`, the contract of its `from`, is not there or does not equate the answer so;
// - a function that its crate's root passes on and that requires something, unless the first list of "Exceptions" names it;
// - a name in "Exceptions" that is no exception;
// - a definition that is said to tell answers apart (below) and of which no statement says so;
// - a contract that crates/promises/specs/Determined.antt restates (`contract of`) in other words than the source, and a
//   function that a host may call and whose contract it does not restate. Those of crate cabinet are left out: each is the
//   contract of one of the others, over the state that C keeps (and tools/header holds what C calls to them).
//
// An answer that is an enum or a Result may be equated through a definition that gives the document's numbers of it, as in
// `told result ≡ test_of file.now`, or of it and of what was lent, as in `answered result e.new ≡ ..`. Such a definition has a
// statement in crates/promises/specs/Determined.antt, with `tells apart crate::definition` in its comment: what it gives of two
// outcomes is one only where they are one. For this tool such a clause then equates the answer, and what was lent, themselves, in
// a function whose answer has the type that the statement speaks of.
// the tools share these, and each asks for a part of them
#[allow(dead_code)]
mod antt;
#[allow(dead_code)]
mod source;
#[allow(dead_code)]
mod tree;

use antt::{words, Definition, Place, Target};
use source::{behind, read, Function, Source};
use std::collections::{BTreeSet, HashMap};
use std::process::ExitCode;
use tree::Tree;

const DETERMINED: &str = "crates/promises/specs/Determined.antt";
const EXCEPTIONS: &str = "docs/CONTRACTS.md, \"Exceptions\"";

/// A function by its crate and its name.
type Named = (String, String);

/// A word of a contract, and the definition that it stands for, if it stands for one.
#[derive(Clone, PartialEq, Eq, PartialOrd, Ord)]
struct Word {
    text: String,
    place: Option<Place>,
}

/// A part of a contract: contracts are such parts with `×` between them.
type Part = Vec<Word>;

/// The words of a part as a complaint shows them.
fn shown(parts: &[Part]) -> String {
    let text = |part: &Part| part.iter().map(|word| word.text.as_str()).collect::<Vec<_>>().join(" ");
    parts.iter().map(text).collect::<Vec<_>>().join("  ×  ")
}

// ---- Contracts as parts

/// How the names of a text are read: those that are bound, each by another name, and else what the file brings in. `lent` are
/// the names, of those in the text, of what is lent.
struct Reading<'a> {
    tree: &'a Tree,
    lookup: Box<dyn Fn(&str) -> Option<Target> + 'a>,
    bound: HashMap<String, String>,
    lent: &'a [String],
}

impl Reading<'_> {
    /// The words of a text. `b.now` and `b.old`, a lent buffer as it came in, is b, `b.new` is b'; `b.entry` is what was handed in, loans and all.
    fn words(&self, text: &[String]) -> Part {
        let mut words: Part = Vec::new();
        let mut at = 0;
        while at < text.len() {
            let word = self.word(&text[at]);
            let given = self.bound.get(&text[at]).is_some_and(|name| name != "answer");
            let lent = given && self.lent.contains(&text[at]);
            let held = text.get(at + 1).map_or("", String::as_str);
            at += 1;
            words.push(match held {
                ".now" | ".old" if lent => word,
                ".entry" if given => word,
                ".new" if lent => Word { text: word.text + "'", place: None },
                _ => {
                    words.push(word);
                    continue;
                }
            });
            at += 1;
        }
        words
    }

    /// A word: a name that is bound, a definition, or a word as it is.
    fn word(&self, word: &str) -> Word {
        let word = word.trim_start_matches('«').trim_end_matches('»');
        if let Some(name) = self.bound.get(word) {
            return Word { text: name.clone(), place: None };
        }
        match (self.lookup)(word) {
            Some(Target::Definition(place)) if !word.starts_with('.') => {
                Word { text: self.tree.definition(place).name.clone(), place: Some(place) }
            }
            _ => Word { text: word.to_string(), place: None },
        }
    }

    /// The parts of a clause, with `result` read as `answer`, or of `λ NAME. TEXT`, with the name read so. With an arrow outside of
    /// brackets it is one part.
    fn parts(&mut self, text: &[String]) -> Option<Vec<Part>> {
        let (name, text) = match text {
            [lambda, name, dot, text @ ..] if lambda == "λ" && dot == "." => (name.as_str(), text),
            [lambda, ..] if lambda == "λ" => return None,
            _ => ("result", text),
        };
        self.bound.insert(name.to_string(), "answer".to_string());
        let words = self.words(text);
        let cuts = if outside(&words, "→").is_empty() { outside(&words, "×") } else { Vec::new() };
        let mut parts = Vec::new();
        let mut from = 0;
        for cut in cuts.into_iter().chain([words.len()]) {
            parts.push(without_brackets(&words[from..cut]));
            from = cut + 1;
        }
        Some(parts)
    }
}

/// The places of a sign that stand in no bracket.
fn outside(words: &[Word], sign: &str) -> Vec<usize> {
    let mut depth = 0;
    let stands = |(at, word): (usize, &Word)| {
        depth += i32::from(word.text == "(" || word.text == "{") - i32::from(word.text == ")" || word.text == "}");
        (depth == 0 && word.text == sign).then_some(at)
    };
    words.iter().enumerate().filter_map(stands).collect()
}

/// A part without brackets around all of it.
fn without_brackets(words: &[Word]) -> Part {
    let texts: Vec<String> = words.iter().map(|word| word.text.clone()).collect();
    if texts.first().is_some_and(|first| first == "(") && behind(&texts, 0) == texts.len() {
        return without_brackets(&words[1..words.len() - 1]);
    }
    words.to_vec()
}

/// What a function ensures, as parts, with its parameters by some names. Nothing where a clause has a form that is not known.
fn ensured(tree: &Tree, source: &Source, function: &Function, names: &[String]) -> Option<Vec<Part>> {
    let mut parts = Vec::new();
    for clause in function.contract.iter().filter(|clause| !clause.requires) {
        let lookup = Box::new(tree.names_in_source(source));
        let bound = function.parameters.iter().cloned().zip(names.iter().cloned()).collect();
        let text = clause.words.get(1..clause.words.len() - 1)?;
        parts.extend(Reading { tree, lookup, bound, lent: &function.lent }.parts(text)?);
    }
    Some(parts)
}

// ---- Definitions that tell answers apart

/// The definitions that `tells apart crate::definition` in the comments of Determined.antt names, each with the type of the answers
/// that it tells apart, and how many things it is given.
struct Tells(Vec<(Place, Vec<String>, usize)>);

impl Tells {
    /// Reads them; a comment that names none, or whose statement does not say so, is a complaint.
    fn read(tree: &Tree, complaints: &mut Vec<String>) -> Tells {
        let mut found = Vec::new();
        let file = tree.specs.iter().position(|file| file.path == DETERMINED);
        for definition in file.iter().flat_map(|file| &tree.specs[*file].definitions) {
            for named in definition.comment.split("tells apart ").skip(1) {
                let named = named.split_whitespace().next().unwrap_or("").trim_end_matches('.');
                match Tells::told(tree, file.unwrap_or(0), definition, named) {
                    Some(told) => found.push(told),
                    None => complaints.push(format!("{DETERMINED}: {}: it does not say that {named} tells answers apart", definition.name)),
                }
            }
        }
        Tells(found)
    }

    /// The definition that is named, where a statement has the form `Name = (a b : A) (c d : C) .. → told a c .. ≡ told b d .. →
    /// (a ≡ b) × (c ≡ d) × ..` and no other, with A and the number of the pairs. One pair may stand without its brackets.
    fn told(tree: &Tree, file: usize, definition: &Definition, named: &str) -> Option<(Place, Vec<String>, usize)> {
        let (krate, name) = named.split_once("::")?;
        let [_, clause] = &definition.pieces[..] else { return None };
        let words = words(clause);
        let mut rest = words.strip_prefix(&[definition.name.clone(), "=".to_string()])?;
        let (mut pairs, mut types) = (Vec::new(), Vec::new());
        while rest.first().is_some_and(|word| word == "(") {
            let (group, more) = rest.split_at(behind(rest, 0));
            let [_, a, b, colon, kind @ .., _] = group else { return None };
            if colon != ":" {
                return None;
            }
            pairs.push([a.as_str(), b.as_str()]);
            types.push(kind.to_vec());
            rest = more;
        }
        // each name is bound once, and stands for nothing else in the statement
        let told = rest.get(1)?.as_str();
        let names: BTreeSet<&str> = pairs.concat().into_iter().chain([told, "≡", "×", "→"]).collect();
        let free = |kind: &Vec<String>| pairs.concat().iter().all(|name| !kind.iter().any(|word| word == name));
        if definition.outer != "" || names.len() != 2 * pairs.len() + 4 || !types.iter().all(free) {
            return None;
        }
        let side = |at: usize| pairs.iter().map(|pair| pair[at]).collect::<Vec<&str>>();
        let front = [&["→", told][..], &side(0), &["≡", told], &side(1), &["→"]].concat();
        let equated = pairs.iter().map(|[a, b]| vec!["(", a, "≡", b, ")"]).collect::<Vec<_>>().join(&"×");
        let says = |equated: &[&str]| rest.iter().map(String::as_str).eq(front.iter().chain(equated).copied());
        let says = says(&equated) || pairs.len() == 1 && says(&equated[1..equated.len() - 1]);
        let lookup = tree.names_in_specs(file);
        let own = ["≡", "×"].iter().any(|sign| matches!(lookup(sign), Some(Target::Definition(_))));
        match lookup(told) {
            Some(Target::Definition(place)) if says && !own && tree.specs[place.0].krate == krate && tree.definition(place).name == name => {
                Some((place, types.first()?.clone(), pairs.len()))
            }
            _ => None,
        }
    }

    /// A part as one about the answer itself, where it speaks of it through such a definition at its type, and the lent things that it speaks of too.
    fn seen_through(&self, part: &Part, answer: &[String]) -> (Part, Vec<String>) {
        let sign = part.iter().position(|word| word.text == "≡" && word.place.is_none()).unwrap_or(0);
        let tells = |place: Place| self.0.iter().any(|(told, kind, given)| *told == place && *given + 1 == sign && is_type(kind, &answer_type(answer)));
        match part.first().and_then(|word| word.place) {
            Some(place) if sign > 1 && part[1].text == "answer" && tells(place) => {
                let lent = part[2..sign].iter().map(|word| word.text.clone()).collect();
                let answer = Word { text: "answer".to_string(), place: None };
                ([&[answer], &part[sign..]].concat(), lent)
            }
            _ => (part.clone(), Vec::new()),
        }
    }
}

/// The type of an answer, as names and signs: Result < u32 , Refusal >.
fn answer_type(answer: &[String]) -> Vec<String> {
    let mut found = Vec::new();
    let text = answer.join(" ");
    let mut rest = text.trim_start().strip_prefix("->").unwrap_or(&text).trim_start();
    while let Some(first) = rest.chars().next() {
        let is_name = |c: char| c.is_alphanumeric() || c == '_' || c == ':' || c == '\'';
        let end = if is_name(first) { rest.find(|c: char| !is_name(c)).unwrap_or(rest.len()) } else { first.len_utf8() };
        found.push(rest[..end].to_string());
        rest = rest[end..].trim_start();
    }
    found
}

/// The parts of a text between commas that stand in no bracket.
fn arguments(text: &[String]) -> Vec<&[String]> {
    let mut depth = 0;
    let parts = text.split(|word| {
        depth += i32::from("(<[".contains(word.as_str())) - i32::from(")>]".contains(word.as_str()));
        depth == 0 && word == ","
    });
    parts.filter(|part| !part.is_empty()).collect()
}

/// Whether a type of the definitions is one of the source: a number's, that of nothing, a type by the last part of its path, and an
/// Option or a Result by its arguments too.
fn is_type(here: &[String], there: &[String]) -> bool {
    let closed = |words: &[String]| words.first().is_some_and(|word| word == "(") && behind(words, 0) == words.len();
    if closed(here) {
        return is_type(&here[1..here.len() - 1], there);
    }
    let of = match &here[..] {
        [of, ..] => of.rsplit('.').next().unwrap_or(of),
        [] => return false,
    };
    let (kind, given) = match there {
        [kind] => (kind.as_str(), Vec::new()),
        [kind, open, given @ .., close] if open == "<" && close == ">" => (kind.as_str(), arguments(given)),
        [open, close] if open == "(" && close == ")" => ("()", Vec::new()),
        _ => return false,
    };
    let kind = kind.rsplit("::").next().unwrap_or(kind);
    match of {
        "Unit" => kind == "()" && here[1..] == ["{", "0", "}"],
        "ℕ" => ["u8", "u16", "u32", "u64", "usize"].contains(&kind) && here.len() == 1,
        "ℤ" => ["i8", "i16", "i32", "i64"].contains(&kind) && here.len() == 1,
        "Option" | "Result" => {
            let mut rest = &here[1..];
            let mut parts = Vec::new();
            while !rest.is_empty() {
                let (part, more) = rest.split_at(if rest[0] == "(" { behind(rest, 0) } else { 1 });
                parts.push(part);
                rest = more;
            }
            kind == of && parts.len() == given.len() && parts.iter().zip(given).all(|(here, there)| is_type(here, there))
        }
        _ => kind == of && here.len() == 1 && there.len() == 1,
    }
}

// ---- What a contract leaves open

/// Whether a part says what some words are, by a text that speaks of nothing that the call gives.
fn equates(part: &Part, subject: &[&str], given: &[String]) -> bool {
    let (front, text) = part.split_at(subject.len().min(part.len()));
    let fits = front.iter().map(|word| word.text.as_str()).eq(subject.iter().copied());
    let [sign, text @ ..] = text else { return false };
    // `≡` of our own would be a definition
    let equals = sign.text == "≡" && sign.place.is_none();
    let plain = ["→", "≡", "⊎"].iter().all(|sign| outside(text, sign).is_empty());
    fits && equals && plain && !text.is_empty() && !text.iter().any(|word| given.contains(&word.text))
}

/// What the contract of a function leaves open: a buffer at the exit, the answer, or, where it has neither, all that it
/// does.
fn left_open(tree: &Tree, tells: &Tells, source: &Source, function: &Function) -> Vec<String> {
    let parts = ensured(tree, source, function, &function.parameters).unwrap_or_default();
    let buffers: Vec<String> = function.written.iter().map(|name| format!("{name}'")).collect();
    let given: Vec<String> = buffers.iter().cloned().chain(["answer".to_string()]).collect();
    let seen: Vec<(Part, Vec<String>)> = parts.iter().map(|part| tells.seen_through(part, &function.answer)).collect();
    let beside = |subject: &[&str]| {
        let about = |(part, lent): &(Part, Vec<String>)| {
            subject.len() == 1 && lent.iter().any(|name| name == subject[0]) && equates(part, &["answer"], &given)
        };
        seen.iter().any(about)
    };
    let says = |subject: &[&str]| beside(subject) || seen.iter().any(|(part, _)| equates(part, subject, &given));
    let structs = tree.sources.iter().filter(|other| other.krate == source.krate).flat_map(|other| &other.structs);
    let by_field = structs
        .filter(|(name, _)| function.answer.contains(name))
        .any(|(_, fields)| !fields.is_empty() && fields.iter().all(|field| says(&["answer", &format!(".{field}")])));
    let left = buffers.iter().filter(|buffer| !says(&[buffer]));
    let mut open: Vec<String> = left.map(|buffer| buffer.replace('\'', " at the exit")).collect();
    if !function.answer.is_empty() && !says(&["answer"]) && !by_field {
        open.push("the answer".to_string());
    }
    if function.answer.is_empty() && buffers.is_empty() {
        open.push("what it does".to_string());
    }
    open
}

/// The functions that docs/CONTRACTS.md names under "Exceptions": those that require something, and those that leave
/// something open. An item of a list names them in front of its first colon, or else behind it, and so does each part of
/// it behind a semicolon. A crate's name holds for the names behind it.
fn exceptions(crates: &[String]) -> (BTreeSet<Named>, BTreeSet<Named>) {
    let page = read("docs/CONTRACTS.md");
    let (mut requiring, mut open) = (BTreeSet::new(), BTreeSet::new());
    for section in page.split("\n# Exceptions\n").nth(1).unwrap_or("").split("\n## ").skip(1) {
        let (heading, text) = section.split_once('\n').unwrap_or((section, ""));
        let list = if heading == "Functions that require something" { &mut requiring } else { &mut open };
        for paragraph in text.split("\n\n").filter_map(|paragraph| paragraph.trim_start().strip_prefix("- ")) {
            paragraph.split("\n- ").for_each(|item| list.extend(named_in(item, heading, crates)));
        }
    }
    (requiring, open)
}

/// The functions that an item of a list names, in a section of some heading.
fn named_in(item: &str, heading: &str, crates: &[String]) -> Vec<Named> {
    let is_crate = |word: &&str| crates.iter().any(|krate| krate == word);
    let words = |text: &str| -> Vec<String> {
        text.split(|c: char| !c.is_alphanumeric() && c != '_').map(str::to_string).collect()
    };
    let mut krate = words(heading).iter().map(String::as_str).find(is_crate).unwrap_or("").to_string();
    let mut found = Vec::new();
    let item = item.replace('\n', " ");
    for part in item.split(';') {
        let (front, rest) = part.split_once(": ").unwrap_or((part, ""));
        let text = if front.contains('`') { front.to_string() } else { format!("{front} {rest}") };
        for (at, text) in text.split('`').enumerate() {
            match (at % 2, text.split_once("::")) {
                (0, _) => krate = words(text).iter().map(String::as_str).rfind(is_crate).unwrap_or(&krate).to_string(),
                (_, Some((krate, name))) => found.push((krate.to_string(), name.to_string())),
                (_, None) => found.push((krate.clone(), text.split('(').next().unwrap_or(text).to_string())),
            }
        }
    }
    found.retain(|(_, name)| !name.contains(' '));
    found
}

/// All complaints about public functions, the number of these, and the exceptions that are none.
fn public_functions(tree: &Tree, tells: &Tells, complaints: &mut Vec<String>) -> usize {
    let (requiring, open) = exceptions(&tree.crates);
    let mut seen = BTreeSet::new();
    let mut count = 0;
    for source in &tree.sources {
        for function in source.functions.iter().filter(|function| function.public) {
            count += 1;
            let named = (source.krate.clone(), function.name.clone());
            let label = format!("crates/{}/src/{}.rt: {}", source.krate, source.module, function.name);
            let left = left_open(tree, tells, source, function);
            let listed = open.contains(&named);
            if !left.is_empty() && !listed {
                complaints.push(format!(
                    "{label}: its contract leaves open: {}; {EXCEPTIONS} does not name it, and no definition that \"tells apart\" in {DETERMINED} gives it",
                    left.join(", ")
                ));
            }
            if left.is_empty() && listed {
                complaints.push(format!("{label}: {EXCEPTIONS} names it, and its contract leaves nothing open"));
            }
            let requires = function.contract.iter().any(|clause| clause.requires);
            let listed = requiring.contains(&named);
            if requires && !listed && passed_on(tree, source, function) {
                complaints.push(format!("{label}: it requires something; {EXCEPTIONS} does not name it"));
            }
            if !requires && listed {
                complaints.push(format!("{label}: {EXCEPTIONS} names it, and it requires nothing"));
            }
            seen.insert(named);
        }
    }
    for (krate, name) in requiring.union(&open).filter(|named| !seen.contains(named)) {
        complaints.push(format!("{EXCEPTIONS} names {name} of {krate}, which is no public function"));
    }
    count
}

/// All complaints about the contracts of `from` in each `impl From`, and the number of these.
fn conversions(tree: &Tree, complaints: &mut Vec<String>) -> usize {
    let mut count = 0;
    for source in &tree.sources {
        for (head, gives) in &source.froms {
            count += 1;
            if !equates_answer(tree, source, gives) {
                complaints.push(format!("crates/{}/src/{}.rt: {head}: from_gives does not equate the answer", source.krate, source.module));
            }
        }
    }
    count
}

/// Whether `λ given answer. TEXT` equates the answer with a text that does not name it.
fn equates_answer(tree: &Tree, source: &Source, gives: &[String]) -> bool {
    let [lambda, given, answer, text @ ..] = gives else { return false };
    let lookup = Box::new(tree.names_in_source(source));
    let bound = HashMap::from([(given.clone(), given.clone())]);
    let text = [&[lambda.clone(), answer.clone()], text].concat();
    let parts = Reading { tree, lookup, bound, lent: &[] }.parts(&text).unwrap_or_default();
    given != answer && parts.iter().any(|part| equates(part, &["answer"], &["answer".to_string()]))
}

/// Whether the root of its crate passes a function on, by its name or with its type.
fn passed_on(tree: &Tree, source: &Source, function: &Function) -> bool {
    let root = tree.sources.iter().find(|root| root.krate == source.krate && root.module == "lib");
    let leads = |path: &Vec<String>| {
        let found = tree.passed_on(&source.krate, path).unwrap_or_default();
        found.iter().any(|(_, other)| std::ptr::eq(*other, function))
    };
    let of_root = |root: &&Source| function.of.as_ref().is_some_and(|of| root.types.contains(of));
    source.module == "lib" || root.is_some_and(|root| root.paths.iter().any(|(public, path)| *public && leads(path))) || root.iter().any(of_root)
}

// ---- What Determined.antt restates

/// A restated contract: the function, the names that the statement has for its parameters, and the call that it is, if
/// the statement is about calls.
struct Restated {
    krate: String,
    name: String,
    arguments: Vec<String>,
    call: Vec<String>,
}

/// What `contract of crate::name(arguments), as Call arguments` in the comment of a definition says.
fn restated_by(definition: &Definition) -> Vec<Restated> {
    let lines = definition.comment.split("contract of ").skip(1);
    let read = |line: &str| {
        let (function, rest) = line.split_once('(')?;
        let (arguments, call) = rest.split_once(')')?;
        let (krate, name) = function.split_once("::")?;
        let call = call.strip_prefix(", as ").unwrap_or("").split_whitespace().map(str::to_string).collect();
        let arguments = arguments.split(", ").filter(|name| !name.is_empty()).map(str::to_string).collect();
        Some(Restated { krate: krate.to_string(), name: name.to_string(), arguments, call })
    };
    lines.filter_map(read).collect()
}

/// The names that the front of a statement binds, and its contract from `λ` on; nothing where it is not of the form
/// `Name = (a : A) (b c : B) → Settles Type (λ r. ..)`.
fn statement(definition: &Definition) -> Option<(Vec<String>, Vec<String>)> {
    let words = words(definition.pieces.get(1)?);
    let settles = words.iter().position(|word| word.starts_with("Settles"))?;
    let lambda = words.iter().position(|word| word == "λ")?;
    if words[lambda - 1] != "(" || behind(&words, lambda - 1) != words.len() {
        return None;
    }
    let mut names = Vec::new();
    let mut at = 2;
    while at < settles {
        let end = behind(&words, at);
        let colon = words[at..end].iter().position(|word| word == ":");
        match (words[at].as_str(), colon) {
            ("→", _) => at += 1,
            ("(", Some(colon)) => {
                names.extend_from_slice(&words[at + 1..at + colon]);
                at = end;
            }
            _ => return None,
        }
    }
    Some((names, words[lambda..words.len() - 1].to_vec()))
}

/// The parts of a restated contract.
fn restated_parts(
    tree: &Tree,
    file: usize,
    definition: &Definition,
    this: &Restated,
    function: &Function,
    written: &[String],
) -> Result<Vec<Part>, String> {
    let (names, text) = statement(definition).ok_or("the statement has a form that this tool does not know")?;
    let is_argument = |name: &&String| this.arguments.contains(name);
    if this.call.is_empty() {
        if let Some(other) = names.iter().find(|name| !is_argument(name)) {
            return Err(format!("the statement binds {other}, which is no argument of the function"));
        }
    }
    let bound = this.arguments.iter().chain(&names).map(|name| (name.clone(), name.clone())).collect();
    let lookup = Box::new(tree.names_in_specs(file));
    let parts = Reading { tree, lookup, bound, lent: &[] }.parts(&text).unwrap_or_default();
    if this.call.is_empty() {
        return Ok(parts.into_iter().map(|part| with_output(part, this, function, written)).collect());
    }
    // `o.answer ≡ does x e` and `o.output ≡ written x e`, each by the clause for this call
    let mut found = Vec::new();
    for part in parts {
        let [_, field, sign, Word { place: Some(place), .. }, _, state] = &part[..] else {
            return Err(format!("'{}' is not of the form 'o .field ≡ definition x e'", shown(&[part])));
        };
        let mut clause = clause_for(tree, *place, &this.call, &state.text)
            .ok_or_else(|| format!("{} has no clause for {}", tree.definition(*place).name, this.call[0]))?;
        let subject = match (field.text.as_str(), &this.arguments, written) {
            (".answer", ..) => "answer".to_string(),
            (_, arguments, [buffer]) => {
                let at = function.parameters.iter().position(|name| name == buffer).unwrap_or(0);
                arguments[at].clone() + "'"
            }
            // a call that is lent no buffer writes nothing
            _ if shown(&[clause.clone()]) == "[ ]" => continue,
            _ => return Err(format!("{} is lent nothing to write", function.name)),
        };
        clause.splice(0..0, [Word { text: subject, place: None }, sign.clone()]);
        found.push(clause);
    }
    Ok(found)
}

/// A part of a restated contract of a function that is lent a buffer to write: `o.answer` is its answer, and `o.output`
/// what the buffer holds at the exit.
fn with_output(mut part: Part, this: &Restated, function: &Function, written: &[String]) -> Part {
    let texts: Vec<&str> = part.iter().take(2).map(|word| word.text.as_str()).collect();
    let subject = match (&texts[..], written) {
        (["answer", ".answer"], [_]) => "answer".to_string(),
        (["answer", ".output"], [buffer]) => {
            let at = function.parameters.iter().position(|name| name == buffer).unwrap_or(0);
            this.arguments[at].clone() + "'"
        }
        _ => return part,
    };
    part.splice(0..2, [Word { text: subject, place: None }]);
    part
}

/// The right side of the clause of a definition for a call, `definition (Call a b) e = ..`, with the call's own arguments.
fn clause_for(tree: &Tree, place: Place, call: &[String], state: &str) -> Option<Part> {
    let clauses = tree.definition(place).pieces.iter().map(|piece| words(piece));
    let clause = clauses.into_iter().find(|words| words.get(2) == Some(&call[0]))?;
    let equals = clause.iter().position(|word| word == "=")?;
    let names: Vec<String> = clause[3..equals].iter().filter(|word| *word != ")").cloned().collect();
    let arguments = call[1..].iter().cloned().chain([state.to_string()]);
    let bound = names.into_iter().zip(arguments).collect();
    let lookup = Box::new(tree.names_in_specs(place.0));
    Some(Reading { tree, lookup, bound, lent: &[] }.words(&clause[equals + 1..]))
}

/// What is wrong with a restated contract.
fn difference(tree: &Tree, tells: &Tells, file: usize, definition: &Definition, this: &Restated) -> Result<(), String> {
    let mut found = Vec::new();
    for source in tree.sources.iter().filter(|source| source.krate == this.krate) {
        found.extend(
            source.functions.iter().filter(|function| function.name == this.name).map(|function| (source, function)),
        );
    }
    let [(source, function)] = found[..] else {
        return Err(format!("there are {} functions of that name", found.len()));
    };
    if function.parameters.len() != this.arguments.len() {
        return Err(format!("it has {} parameters", function.parameters.len()));
    }
    if function.contract.iter().any(|clause| clause.requires) {
        return Err("it requires something".to_string());
    }
    let there = ensured(tree, source, function, &this.arguments)
        .ok_or("its contract has a form that this tool does not know")?;
    let (mut there, told): (Vec<Part>, Vec<Vec<String>>) = there.iter().map(|part| tells.seen_through(part, &function.answer)).unzip();
    // what is lent to be written, but for what the answer's own clause speaks of
    let named = |name: &&String| {
        let at = function.parameters.iter().position(|parameter| parameter == *name).unwrap_or(0);
        !told.iter().flatten().any(|told| *told == format!("{}'", this.arguments[at]))
    };
    let written: Vec<String> = function.written.iter().filter(named).cloned().collect();
    let mut here = restated_parts(tree, file, definition, this, function, &written)?;
    here.sort();
    there.sort();
    if here == there {
        return Ok(());
    }
    let (here, there) = (shown(&here), shown(&there));
    Err(format!("crates/{}/src/{}.rt ensures '{there}', restated is '{here}'", source.krate, source.module))
}

/// All complaints about restated contracts, and the number of these.
fn restated(tree: &Tree, tells: &Tells, complaints: &mut Vec<String>) -> usize {
    let mut named: BTreeSet<Named> = BTreeSet::new();
    let Some(file) = tree.specs.iter().position(|file| file.path == DETERMINED) else {
        complaints.push(format!("there is no {DETERMINED}"));
        return 0;
    };
    for definition in &tree.specs[file].definitions {
        for this in restated_by(definition) {
            if let Err(what) = difference(tree, tells, file, definition, &this) {
                complaints.push(format!("{DETERMINED}: {}: {}::{}: {what}", definition.name, this.krate, this.name));
            }
            named.insert((this.krate, this.name));
        }
    }
    for (source, function) in tree.host_functions(complaints).into_iter().filter(|(source, _)| source.krate != "cabinet") {
        if !named.contains(&(source.krate.clone(), function.name.clone())) {
            let label = format!("crates/{}/src/{}.rt: {}", source.krate, source.module, function.name);
            complaints.push(format!("{label}: a host may call it, and {DETERMINED} does not restate its contract"));
        }
    }
    named.len()
}

fn main() -> ExitCode {
    let tree = Tree::load();
    let mut complaints = Vec::new();
    let tells = Tells::read(&tree, &mut complaints);
    let public = public_functions(&tree, &tells, &mut complaints);
    let conversions = conversions(&tree, &mut complaints);
    let restated = restated(&tree, &tells, &mut complaints);
    complaints.iter().for_each(|complaint| println!("contracts: {complaint}"));
    println!("contracts: {public} public functions, {conversions} conversions, {restated} restated contracts, {} complaints", complaints.len());
    ExitCode::from(u8::from(!complaints.is_empty() || public == 0 || restated == 0))
}
