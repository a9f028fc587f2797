// Looks whether a function in crates/*/src may call itself, directly or through others. The language has recursion (with a
// measure). A function calls each function whose name stands in its body in front of a bracket, and each whose name it hands on. A
// method's name in front of a bracket stands for all methods of that name, whatever their types, but behind a type's name for those
// of this type. The body of a closure is a part of the function that writes it; what calls a parameter calls whatever stands in the
// closures that are handed to it. A `?` calls each `from` of the types that its function's answer names, since it may convert an
// error. No source has a function pointer, a `dyn` value or a macro of its own, and none calls `into`, which would hide the name.
//
//     rustc --edition 2021 -o target/recursion tools/recursion.rs && target/recursion
//
// prints the number of functions and how long the longest chains of calls are. The status is 1, with a line for each complaint, where
// calls lead round in a circle, where a call leads to no function that this tool can find, and where a function might be called
// without its name.
// the tools share these, and each asks for a part of them
#[allow(dead_code)]
mod antt;
#[allow(dead_code)]
mod source;
#[allow(dead_code)]
mod tree;

use source::{Function, Source};
use std::collections::HashMap;
use std::process::ExitCode;
use tree::Tree;

/// Crates of the kit and types whose functions may be called; none of them can call a function of this repository but one that it is handed.
const OF_THE_KIT: [&str; 29] = [
    "std", "io", "libc", "u8", "u16", "u32", "u64", "usize", "i8", "i16", "i32", "i64", "isize", "f32", "f64", "bool", "char",
    "str", "Option", "Result", "Some", "Ok", "Err", "Vec", "String", "Box", "core", "Default", "From",
];
/// Words that may stand in front of a bracket and call nothing.
const KEYWORDS: [&str; 11] = ["if", "while", "match", "return", "in", "as", "else", "mut", "for", "move", "let"];

/// Words by which a function may be called without its name.
const INDIRECT: [&str; 3] = ["dyn", "macro_rules", "macro_rules!"];

/// A function by its place among all.
type Id = usize;

/// All functions with their files.
struct Calls<'a> {
    tree: &'a Tree,
    all: Vec<(&'a Source, &'a Function)>,
}

impl Calls<'_> {
    /// A function as `crate::module::name`, a method as `crate::module::Type::name`.
    fn label(&self, id: Id) -> String {
        let (source, function) = self.all[id];
        let of = function.of.as_ref().map_or(String::new(), |of| format!("{of}::"));
        format!("{}::{}::{of}{}", source.krate, source.module, function.name)
    }

    /// The functions that one calls or hands on, or a line for a call that leads nowhere.
    fn of(&self, id: Id) -> Vec<Result<Id, String>> {
        let body = &self.all[id].1.body;
        let mut found = self.named(id, 0..body.len());
        found.extend(self.converted(id).into_iter().map(Ok));
        if !self.all[id].1.called.is_empty() {
            for caller in 0..self.all.len() {
                found.extend(self.handed(caller, id));
            }
        }
        found
    }

    /// The functions that a part of the body of one calls or hands on.
    fn named(&self, id: Id, part: std::ops::Range<usize>) -> Vec<Result<Id, String>> {
        let body = &self.all[id].1.body;
        let mut found = Vec::new();
        for at in part {
            let word = body[at].trim_start_matches(['!', '&', '*', '-', '?', '|']);
            // `<A as B>::name` is a method of whatever type
            let qualified = word.rsplit_once(">::").map(|(_, name)| format!(".{name}"));
            let word = qualified.as_deref().or(word.split("::<").next()).unwrap_or(word);
            let calls = body.get(at + 1).is_some_and(|next| next == "(") || body[at].contains("::<");
            match (is_call(word), calls) {
                (false, _) => {}
                (true, true) => match self.found(id, word) {
                    Ok(ids) => found.extend(ids.into_iter().map(Ok)),
                    Err(line) => found.push(Err(line)),
                },
                // a name that is handed on; most words without a path are variables, which lead nowhere, and behind a dot fields
                (true, false) if qualified.is_some() || !word.contains('.') && !self.is_bound(id, word) => match self.found(id, word) {
                    Ok(ids) => found.extend(ids.into_iter().map(Ok)),
                    Err(line) => found.extend(word.contains("::").then_some(Err(line))),
                },
                _ => {}
            }
        }
        found
    }

    /// The `from`s that a `?` in the body of one may call: those of the types that its answer names, or where a closure stands there,
    /// or the answer names a letter, those of all types.
    fn converted(&self, id: Id) -> Vec<Id> {
        let function = self.all[id].1;
        let is_closure = |word: &String| word.starts_with('|');
        let named: Vec<String> = function.answer.iter().flat_map(|word| source::named_types(word)).collect();
        let named: Vec<&str> = named.iter().map(|path| path.rsplit("::").next().unwrap_or(path)).collect();
        let all = function.body.iter().any(is_closure) || named.iter().any(|name| name.len() == 1 || *name == "Self");
        let fits = |of: &str| all || named.contains(&of);
        let is_from = |id: &Id| self.all[*id].1.name == "from" && self.all[*id].1.of.as_deref().is_some_and(fits);
        let asks = function.body.iter().any(|word| word.contains('?'));
        (0..self.all.len()).filter(|_| asks).filter(is_from).collect()
    }

    /// What stands in the closures, and among the names, that one function hands to another.
    fn handed(&self, caller: Id, to: Id) -> Vec<Result<Id, String>> {
        let body = &self.all[caller].1.body;
        let is_call_of = |at: &usize| {
            let word = body[*at].trim_start_matches(['!', '&', '*', '-', '?', '|']);
            body[at + 1] == "(" && is_call(word) && self.found(caller, word).is_ok_and(|ids| ids.contains(&to))
        };
        let calls = (0..body.len().saturating_sub(1)).filter(is_call_of);
        calls.flat_map(|at| self.named(caller, at + 2..source::behind(body, at + 1) - 1)).filter(|found| *found != Ok(to)).collect()
    }

    /// Whether a word is a parameter or a variable of a function.
    fn is_bound(&self, id: Id, word: &str) -> bool {
        let function = self.all[id].1;
        let bound = |part: &[String]| part.iter().any(|name| name.trim_matches(['|', '&', ':']) == word);
        (0..function.body.len()).any(|at| bound(pattern(&function.body, at))) || function.parameters.iter().any(|name| name == word)
    }

    /// The functions that a name stands for in the file of a function; none where it is one of the kit's, or a parameter that is called.
    fn found(&self, id: Id, name: &str) -> Result<Vec<Id>, String> {
        let (source, function) = self.all[id];
        if function.called.iter().any(|called| called == name) {
            return Ok(Vec::new());
        }
        let methods = |name: &str, of: Option<&str>| -> Vec<Id> {
            let fits = |(_, other): &(&Source, &Function)| {
                other.name == name && other.of.is_some() && of.is_none_or(|of| other.of.as_deref() == Some(of))
            };
            (0..self.all.len()).filter(|at| fits(&self.all[*at])).collect()
        };
        if let Some((_, method)) = name.rsplit_once('.') {
            return if method == "into" { Err(format!("{}: into hides which function is called", self.label(id))) } else { Ok(methods(method, None)) };
        }
        let path: Vec<String> = name.split("::").map(str::to_string).collect();
        if let [.., of, method] = &path[..] {
            if method == "into" {
                return Err(format!("{}: into hides which function is called", self.label(id)));
            }
            let of = if of == "Self" { function.of.clone().unwrap_or_default() } else { of.clone() };
            let is_type = of.starts_with(char::is_uppercase);
            let of_type = if is_type { methods(method, Some(&of)) } else { Vec::new() };
            // a derived `default` calls those of the fields' types
            if !of_type.is_empty() || is_type && (of.len() == 1 || of == "From" || method == "default") {
                return Ok(if of_type.is_empty() { methods(method, None) } else { of_type });
            }
        }
        if OF_THE_KIT.contains(&path[0].as_str()) && path.len() > 1 {
            return Ok(Vec::new());
        }
        let brought = source.paths.iter().map(|(_, path)| path).find(|brought| brought.last() == Some(&path[0]));
        let own = |function: &&Function| function.name == name && function.of.is_none();
        let found = match (source.functions.iter().find(own), brought) {
            (Some(function), _) => Some(function),
            (None, Some(brought)) if OF_THE_KIT.contains(&brought[0].as_str()) => return Ok(Vec::new()),
            (None, Some(brought)) => self.followed(source, &[&brought[..], &path[1..]].concat()),
            (None, None) => self.followed(source, &path),
        };
        let at = found.and_then(|function| self.all.iter().position(|(_, other)| std::ptr::eq(*other, function)));
        at.map(|at| vec![at]).ok_or_else(|| format!("{}: a call of {name} leads nowhere", self.label(id)))
    }

    /// The function that a path leads to.
    fn followed(&self, source: &Source, path: &[String]) -> Option<&Function> {
        self.tree.follow(&source.krate, path)?.first().map(|(_, function)| *function)
    }
}

/// The words of the pattern that a word of a body belongs to: behind `let` and `for`, a closure's parameters, and in front of `=>`.
fn pattern(body: &[String], at: usize) -> &[String] {
    let up_to = |ends: &dyn Fn(&String) -> bool| &body[at..body[at + 1..].iter().position(ends).map_or(at + 1, |end| at + end + 2)];
    let opens = |at: usize| at > 0 && ["(", ",", "=", "{", "[", ";", "=>", "return", "move"].contains(&body[at - 1].as_str());
    match body[at].as_str() {
        "let" => up_to(&|word| word == "=" || word == ";"),
        "for" => up_to(&|word| word == "in"),
        word if word.len() > 1 && word.starts_with('|') && word.ends_with('|') => &body[at..at + 1],
        word if word.starts_with('|') && opens(at) => up_to(&|word| word.ends_with('|')),
        "=>" => {
            let mut depth = 0;
            let begins = |&place: &usize| {
                let word = body[place].as_str();
                let ends_arm = depth == 0 && (word == "," || word == "}" && place + 1 < at);
                depth += i32::from(")}]".contains(word)) - i32::from("({[".contains(word));
                ends_arm || depth < 0
            };
            let from = (0..at).rev().find(begins).map_or(0, |place| place + 1);
            let guard = body[from..at].iter().position(|word| word == "if").unwrap_or(at - from);
            &body[from..from + guard]
        }
        _ => &[],
    }
}

/// Whether a word in front of a bracket is a function's name. A type or a variant begins with a capital.
fn is_call(word: &str) -> bool {
    let last = word.rsplit([':', '.']).next().unwrap_or(word);
    let named = word.chars().all(|c| c.is_alphanumeric() || "_:.".contains(c));
    named && last.starts_with(|c: char| c.is_lowercase() || c == '_') && !KEYWORDS.contains(&word)
}

/// What in a file may call a function without its name: a word, or a pointer's type.
fn indirect(source: &Source) -> Vec<String> {
    let label = |what: &str| format!("crates/{}/src/{}.rt: {what}", source.krate, source.module);
    let word = source.words.iter().filter(|word| INDIRECT.contains(&word.as_str())).map(|word| label(word));
    let pointer = source.words.windows(2).filter(|pair| pair[0] == "fn" && pair[1] == "(").map(|_| label("a function pointer"));
    word.chain(pointer).collect()
}

/// Goes through the calls, each function once.
struct Walk<'a> {
    calls: Calls<'a>,
    /// for each function that is done the longest chain of calls from it
    longest: HashMap<Id, Vec<Id>>,
    /// the functions that are being gone through, each called by the one before
    open: Vec<Id>,
    complaints: Vec<String>,
}

impl Walk<'_> {
    /// The longest chain from a function on.
    fn chain(&mut self, id: Id) -> Vec<Id> {
        if let Some(chain) = self.longest.get(&id) {
            return chain.clone();
        }
        if let Some(from) = self.open.iter().position(|open| *open == id) {
            let circle: Vec<String> = self.open[from..].iter().chain([&id]).map(|id| self.calls.label(*id)).collect();
            self.complaints.push(format!("calls lead round: {}", circle.join(" > ")));
            return Vec::new();
        }
        self.open.push(id);
        let mut longest = Vec::new();
        for called in self.calls.of(id) {
            match called {
                Ok(called) => longest = std::cmp::max_by_key(self.chain(called), longest, Vec::len),
                Err(complaint) => self.complaints.push(complaint),
            }
        }
        self.open.pop();
        longest.insert(0, id);
        self.longest.insert(id, longest.clone());
        longest
    }
}

fn main() -> ExitCode {
    let tree = Tree::load();
    let all: Vec<(&Source, &Function)> = tree
        .sources
        .iter()
        .flat_map(|source| source.functions.iter().map(move |function| (source, function)))
        .collect();
    let of_host = tree.host_functions(&mut Vec::new());
    let is_of_host = |id: &Id| of_host.iter().any(|(_, function)| std::ptr::eq(*function, all[*id].1));
    let (ids, host_ids): (Vec<Id>, Vec<Id>) = ((0..all.len()).collect(), (0..all.len()).filter(is_of_host).collect());
    let calls = Calls { tree: &tree, all };
    let mut walk = Walk { calls, longest: HashMap::new(), open: Vec::new(), complaints: Vec::new() };
    let mut longest = |ids: &[Id]| ids.iter().map(|id| walk.chain(*id)).max_by_key(Vec::len).unwrap_or_default();
    let (chain, host_chain) = (longest(&ids), longest(&host_ids));
    walk.complaints.extend(tree.sources.iter().flat_map(indirect));
    walk.complaints.iter().for_each(|complaint| println!("recursion: {complaint}"));
    let ends = |chain: &[Id]| match chain {
        [first, .., last] => format!("{} ({} to {})", chain.len(), walk.calls.label(*first), walk.calls.label(*last)),
        _ => chain.len().to_string(),
    };
    let (longest, of_host) = (ends(&chain), ends(&host_chain));
    let (count, complaints) = (ids.len(), walk.complaints.len());
    println!("recursion: {count} functions, longest chain of calls {longest}, of a host's calls {of_host}; {complaints} complaints");
    ExitCode::from(u8::from(!walk.complaints.is_empty() || ids.is_empty()))
}
