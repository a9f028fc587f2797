//! The sources as a reader of contracts needs them: functions with their heads, contracts and bodies, types, and `use`
//! lines.
use crate::antt::{self, Use};
use std::fs;
use std::path::{Path, PathBuf};

/// A clause of a contract, with its braces and without its name: a `requires` or an `ensures`.
pub struct Clause {
    pub requires: bool,
    pub words: Vec<String>,
}

/// A function of the source, with the type whose `impl` or the trait that holds it, the names of its parameters (`self` is one),
/// those of them that are lent, those lent to be written, those that are called, the words of its answer's type, the types of its
/// head as paths, its contract, and the words of its body, none where a trait only names it.
pub struct Function {
    pub name: String,
    pub of: Option<String>,
    pub public: bool,
    pub called: Vec<String>,
    pub parameters: Vec<String>,
    pub lent: Vec<String>,
    pub written: Vec<String>,
    pub answer: Vec<String>,
    pub types: Vec<String>,
    pub contract: Vec<Clause>,
    pub body: Vec<String>,
}

/// A source file: `module` is its name without the ending, `structs` has the fields of each, `paths` are its `use` lines,
/// and whether each is `pub`.
pub struct Source {
    pub krate: String,
    pub module: String,
    pub functions: Vec<Function>,
    pub types: Vec<String>,
    pub structs: Vec<(String, Vec<String>)>,
    pub paths: Vec<(bool, Vec<String>)>,
    pub uses: Vec<Use>,
    /// the words of its ghost fields and ghost members
    pub ghosts: Vec<String>,
    /// its `impl From`s, each by its head with the words of its ghost `from_gives`, none where it has none
    pub froms: Vec<(String, Vec<String>)>,
    /// all its words, in order
    pub words: Vec<String>,
}

/// Reads a file of the repository, and ends with its name where that fails.
pub fn read(path: impl AsRef<Path>) -> String {
    let path = path.as_ref();
    fs::read_to_string(path).unwrap_or_else(|error| {
        eprintln!("{}: {error}", path.display());
        std::process::exit(2)
    })
}

/// All files below a folder that have an ending, by name; none where there is no such folder.
pub fn files(folder: &str, ending: &str) -> Vec<PathBuf> {
    let Ok(entries) = fs::read_dir(folder) else { return Vec::new() };
    let mut found = Vec::new();
    for path in entries.flatten().map(|entry| entry.path()) {
        if path.is_dir() {
            found.extend(files(&path.to_string_lossy(), ending));
        } else if path.extension().is_some_and(|it| it == ending) {
            found.push(path);
        }
    }
    found.sort();
    found
}

/// Reads a source file of a crate.
pub fn read_source(krate: &str, path: &Path) -> Source {
    let text = without_literals(&antt::without_comments(&read(path)));
    let module = path.file_stem().unwrap_or_default().to_string_lossy().to_string();
    let uses = text.lines().filter_map(antt::use_line).filter(|line| line.path.starts_with("Rattle.")).collect();
    let paths = use_items(&text);
    let words = antt::tokens(&text);
    let named = |pair: &&[String]| pair[0] == "struct" || pair[0] == "enum";
    let types = words.windows(2).filter(named).map(|pair| bare(&pair[1]).to_string()).collect();
    let structs = (0..words.len()).filter(|&at| words[at] == "struct").map(|at| fields(&words, at)).collect();
    Source { krate: krate.to_string(), module, functions: functions(&words), types, structs, paths, uses, ghosts: ghosts(&words), froms: froms(&words), words }
}

/// What stands in the braces of ghost fields and ghost members.
fn ghosts(words: &[String]) -> Vec<String> {
    let is_ghost = |at: &usize| words[*at] == "ghost" && words.get(at + 1).is_some_and(|word| word != "use");
    let heads = (0..words.len()).filter(is_ghost);
    heads.filter_map(|at| Some(at + words[at..].iter().position(|word| word == "{")?)).flat_map(|open| antt::apart(&words[open..behind(words, open)])).collect()
}

/// The `impl From`s of a file, each by its head, and what stands in the braces of its ghost `from_gives`.
fn froms(words: &[String]) -> Vec<(String, Vec<String>)> {
    let impls = (0..words.len()).filter_map(|at| holder(words, at).map(|(open, end, _)| (at, open, end)));
    let is_from = |at: usize, open: usize| words[at..open].iter().any(|word| word.contains('<') && bare(word).rsplit("::").next() == Some("From"));
    let gives = |(at, open, end): (usize, usize, usize)| {
        let ghost = (open..end - 1).find(|&at| words[at] == "ghost" && words[at + 1] == "from_gives");
        let brace = ghost.and_then(|ghost| Some(ghost + words[ghost..end].iter().position(|word| word == "{")?));
        let text = brace.map_or(Vec::new(), |brace| antt::apart(&words[brace + 1..behind(words, brace) - 1]));
        (words[at..open].join(" "), text)
    };
    impls.filter(|(at, open, _)| is_from(*at, *open)).map(gives).collect()
}

/// The `use` items of a text, each path of a group by itself, and whether they are `pub`. An item ends with its semicolon.
fn use_items(text: &str) -> Vec<(bool, Vec<String>)> {
    let mut found = Vec::new();
    let mut lines = text.lines();
    while let Some(line) = lines.next() {
        let public = line.starts_with("pub use ");
        let Some(item) = line.strip_prefix("pub use ").or(line.strip_prefix("use ")) else { continue };
        let mut item = item.to_string();
        while !item.contains(';') {
            let Some(more) = lines.next() else { break };
            item += more.trim();
        }
        let item = item.split(';').next().unwrap_or("");
        found.extend(paths_of(item).into_iter().map(|path| (public, path)));
    }
    found
}

/// The paths of an item, as `a::b` and `a::c::d` of `a::{b, c::d}`.
fn paths_of(item: &str) -> Vec<Vec<String>> {
    let item = item.trim();
    let Some((front, group)) = item.split_once('{') else {
        return vec![item.split("::").map(|part| part.trim().to_string()).filter(|part| !part.is_empty()).collect()];
    };
    let front = paths_of(front.trim_end().trim_end_matches("::")).concat();
    let group = &group[..group.rfind('}').unwrap_or(group.len())];
    let mut depth = 0;
    let parts = group.split(|c: char| {
        depth += i32::from(c == '{') - i32::from(c == '}');
        depth == 0 && c == ','
    });
    let behind = parts.filter(|part| !part.trim().is_empty()).flat_map(paths_of);
    behind.map(|path| front.iter().cloned().chain(path).collect()).collect()
}

/// The name of the struct whose `struct` stands at a place, and its fields.
fn fields(words: &[String], at: usize) -> (String, Vec<String>) {
    // a ghost field is a fact on the others, and holds nothing
    let own = (at + 2..behind(words, at + 2)).filter(|&place| words[place - 1] != "ghost");
    let names = own.filter_map(|place| words[place].strip_suffix(':'));
    (bare(&words[at + 1]).to_string(), names.map(str::to_string).collect())
}

/// A text with nothing in its bytes and byte strings, as b'(' and b"(", where a bracket is no bracket.
fn without_literals(text: &str) -> String {
    let mut left = String::new();
    let mut rest = text;
    while let Some(at) = ["b'", "b\""].iter().filter_map(|quote| rest.find(quote)).min() {
        let (front, literal) = rest.split_at(at + 2);
        left += front;
        rest = literal;
        let of_name = front[..at].ends_with(|c: char| c.is_alphanumeric() || c == '_');
        let quote = front.chars().last();
        let mut escaped = false;
        let closes = |c: char| {
            let closes = !escaped && Some(c) == quote;
            escaped = !escaped && c == '\\';
            closes
        };
        if let Some(end) = literal.find(closes).filter(|_| !of_name) {
            left += &literal[end..=end];
            rest = &literal[end + 1..];
        }
    }
    left + rest
}

/// A name without the lifetimes behind it.
fn bare(name: &str) -> &str {
    name.split('<').next().unwrap_or(name)
}

/// The types that a word of a head names, as paths: answers::Poured and Refusal of Result<answers::Poured,Refusal>.
pub fn named_types(word: &str) -> Vec<String> {
    let paths = word.split(|c: char| !c.is_alphanumeric() && c != '_' && c != ':').map(|path| path.trim_matches(':'));
    let is_type = |path: &&str| path.rsplit("::").next().is_some_and(|last| last.starts_with(char::is_uppercase));
    paths.filter(is_type).map(str::to_string).collect()
}

/// The place behind the bracket that closes the one at a place.
pub fn behind(words: &[String], at: usize) -> usize {
    let mut depth = 0;
    let closes = |word: &String| {
        depth += i32::from("({[".contains(word.as_str())) - i32::from(")}]".contains(word.as_str()));
        depth == 0
    };
    words[at..].iter().position(closes).map_or(words.len(), |end| at + end + 1)
}

/// All functions of a file, in order.
fn functions(words: &[String]) -> Vec<Function> {
    let holders: Vec<(usize, usize, String)> = (0..words.len()).filter_map(|at| holder(words, at)).collect();
    let heads = (0..words.len()).filter(|&at| words[at] == "fn" && at + 2 < words.len() && words[at + 1] != "(");
    let of = |at: usize| holders.iter().find(|(from, end, _)| *from < at && at < *end).map(|(_, _, name)| name.clone());
    heads.map(|at| function(words, at, of(at))).collect()
}

/// The `impl` or the trait whose word stands at a place, as an item: where its braces begin and end, and the type's or the
/// trait's name.
fn holder(words: &[String], at: usize) -> Option<(usize, usize, String)> {
    let first = words[at].as_str();
    let is_item = at == 0 || ["}", ";", "]", "pub"].contains(&words[at - 1].as_str());
    if !is_item || !(first == "impl" || first.starts_with("impl<") || first == "trait") {
        return None;
    }
    let open = at + words[at..].iter().position(|word| word == "{")?;
    let head = &words[at..open];
    let head = &head[..head.iter().position(|word| word == "where").unwrap_or(head.len())];
    let of = match head.iter().position(|word| word == "for") {
        Some(place) => head.get(place + 1)?,
        None if first == "trait" => head.get(1)?.strip_suffix(':').map_or(head.get(1), |_| head.get(1))?,
        None => behind_parameters(head)?,
    };
    Some((open, behind(words, open), bare(of).trim_end_matches(':').to_string()))
}

/// The type of an `impl`'s head: what stands behind its own parameters, which may hold several words.
fn behind_parameters(head: &[String]) -> Option<&String> {
    let mut open = 0;
    head.iter().enumerate().find_map(|(at, word)| {
        let is_type = at > 0 && open == 0;
        open += word.matches('<').count() as i32 - word.matches('>').count() as i32;
        is_type.then_some(word)
    })
}

/// The parameters that are called: those of a type `impl Fn(..)`, and those of a type parameter with such a bound.
fn called(words: &[String], at: usize, open: usize, end: usize) -> Vec<String> {
    let is_fn = |word: &str| ["Fn", "FnMut", "FnOnce"].contains(&word);
    let letters: Vec<&str> = words[at..end]
        .windows(2)
        .filter(|pair| is_fn(&pair[1]))
        .filter_map(|pair| pair[0].rsplit('<').next().and_then(|word| word.strip_suffix(':')))
        .collect();
    let typed = |pair: &&[String]| {
        let kind = pair[1].trim_start_matches('&');
        pair[0].ends_with(':') && (letters.contains(&kind) || kind == "impl" && is_fn(&pair[2]))
    };
    words[open..end].windows(3).filter(typed).filter_map(|pair| pair[0].strip_suffix(':').map(str::to_string)).collect()
}

/// The function whose `fn` stands at a place.
fn function(words: &[String], at: usize, of: Option<String>) -> Function {
    let open = at + words[at..].iter().position(|word| word == "(").unwrap_or(0);
    let open = at + 1 + parameters(&words[at + 1..]).unwrap_or(open - at - 1);
    let mut end = behind(words, open);
    let head = &words[open..end];
    let called = called(words, at, open, end);
    let of_self = head.iter().position(|word| word == "self" || word.starts_with('&') && word.ends_with("self"));
    let lends_self = of_self.is_some_and(|place| head[place] != "self" || head[place - 1].starts_with('&'));
    let writes_self = of_self.is_some_and(|place| head[place] == "self" && head[place - 1] == "&mut");
    let own = |holds: bool| holds.then(|| "self".to_string()).into_iter();
    let named = |word: &String| word.strip_suffix(':').map(str::to_string);
    let lent = head.windows(2).filter(|pair| pair[1].starts_with('&')).filter_map(|pair| named(&pair[0]));
    let lent = own(lends_self).chain(lent).collect();
    let written = head.windows(2).filter(|pair| pair[1] == "&mut").filter_map(|pair| named(&pair[0]));
    let written = own(writes_self).chain(written).collect();
    let (mut answer, mut contract) = (Vec::new(), Vec::new());
    let mut bounds = false;
    while end < words.len() && words[end] != "{" && words[end] != ";" {
        let begins = words[end] == "requires" || words[end] == "ensures";
        let brace = if begins { words[end..].iter().position(|word| word == "{") } else { None };
        let Some(brace) = brace else {
            bounds |= words[end] == "where";
            let next = if words[end] == "[" { behind(words, end) } else { end + 1 };
            if !bounds {
                answer.extend_from_slice(&words[end..next]);
            }
            end = next;
            continue;
        };
        let close = behind(words, end + brace);
        contract.push(Clause { requires: words[end] == "requires", words: antt::apart(&words[end + brace..close]) });
        end = close;
    }
    let own_type = of.iter().filter(|_| of_self.is_some());
    let types = head.iter().chain(&answer).flat_map(|word| named_types(word)).chain(own_type.cloned()).collect();
    Function {
        name: bare(&words[at + 1]).to_string(),
        of,
        public: at > 0 && words[at - 1] == "pub",
        called,
        parameters: own(of_self.is_some()).chain(head.iter().filter_map(named)).collect(),
        lent,
        written,
        types,
        answer,
        contract,
        body: if words.get(end).is_some_and(|word| word == "{") { words[end..behind(words, end)].to_vec() } else { Vec::new() },
    }
}

/// Where in a head, from the function's name on, the bracket of its parameters stands: behind its type parameters, in whose bounds
/// other brackets may stand.
fn parameters(head: &[String]) -> Option<usize> {
    let mut depth = 0;
    for (at, word) in head.iter().enumerate() {
        if depth == 0 && word == "(" {
            return Some(at);
        }
        let arrows = word.matches("->").count() as i32;
        depth += word.matches('<').count() as i32 - (word.matches('>').count() as i32 - arrows);
    }
    None
}
