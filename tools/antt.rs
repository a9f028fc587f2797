//! A small reader of antt, the language of the definitions: what a file defines, what it brings in by `use`, and which
//! names a text cites. It knows the forms that stand in this repository, as the formatter leaves them.

/// A definition by its file and its place in the file.
pub type Place = (usize, usize);

/// What a name stands for. A type of the source goes by its crate and its name.
#[derive(Clone, PartialEq, Eq, PartialOrd, Ord)]
pub enum Target {
    Definition(Place),
    Constructor(Place),
    Type(String, String),
    Variant(String, String),
}

/// How a definition is written.
#[derive(Clone, Copy, PartialEq, Eq)]
pub enum Kind {
    Clauses,
    Record,
    Data,
}

/// A definition: its pieces are the signature (or a type's head), and then each clause, field or constructor.
pub struct Definition {
    pub name: String,
    pub kind: Kind,
    pub constructors: Vec<String>,
    pub comment: String,
    pub lines: usize,
    /// the head of the `module _` block that it stands in, or nothing
    pub outer: String,
    pub pieces: Vec<String>,
}

impl Definition {
    /// Whether it is a statement: a type, or a function to types.
    pub fn is_type(&self) -> bool {
        let signature = words(&self.pieces[0]);
        self.kind != Kind::Clauses || signature.len() > 1 && signature[signature.len() - 2] == "Type"
    }

    /// Whether it is a sentence: a type by itself, of nothing.
    pub fn is_sentence(&self) -> bool {
        let signature = words(&self.pieces[0]);
        let behind = signature.iter().position(|word| *word == self.name).map_or(0, |at| at + 1);
        self.kind == Kind::Clauses && matches!(&signature[behind..], [colon, kind, _] if colon == ":" && kind == "Type")
    }
}

/// A `use` line: a module's path, and the items that it brings as (name there, name here), or the name for the module.
pub struct Use {
    pub path: String,
    pub items: Vec<(String, String)>,
    pub module: Option<String>,
}

/// The line without its comment.
fn code<'a>(line: &'a str, comment: &str) -> &'a str {
    let starts = |at: &usize| *at == 0 || line[..*at].ends_with(char::is_whitespace);
    let at = line.match_indices(comment).map(|(at, _)| at).find(starts);
    line[..at.unwrap_or(line.len())].trim_end()
}

/// The text of a source file without its comments.
pub fn without_comments(text: &str) -> String {
    text.lines().map(|line| code(line, "//")).collect::<Vec<_>>().join("\n")
}

/// A text as names and signs. The dot behind a bound name is a sign of its own.
pub fn tokens(text: &str) -> Vec<String> {
    let mut found = Vec::new();
    for word in text.split_whitespace() {
        let mut rest = word;
        while let Some(at) = rest.find(|c| "(){}[],;".contains(c)) {
            push_name(&rest[..at], &mut found);
            found.push(rest[at..=at].to_string());
            rest = &rest[at + 1..];
        }
        push_name(rest, &mut found);
    }
    found
}

/// A word between signs: a name, nothing, or a bound name and its dot.
fn push_name(name: &str, found: &mut Vec<String>) {
    match name.strip_suffix('.') {
        Some(bound) if !bound.is_empty() => found.extend([bound.to_string(), ".".to_string()]),
        _ if name.is_empty() => {}
        _ => found.push(name.to_string()),
    }
}

/// A text of the definitions as names and signs; what is projected from a value, as `.engine` in `p.engine.clock`, is a word of its own.
pub fn words(text: &str) -> Vec<String> {
    apart(&tokens(text))
}

/// Words, each projection of them apart. A name of a module, as `Item.Bad`, `is.Sustain` or `EventsKeys.off`, stays whole: of what stands in
/// front of its dots and behind them something begins with a capital. So does a number.
pub fn apart(words: &[String]) -> Vec<String> {
    let small = |part: &str| part.starts_with(|c: char| c.is_lowercase() || c.is_ascii_digit() || c == '_' || c == '«');
    let projects = |word: &String| {
        let mut parts = word.split('.');
        let front = parts.next().unwrap_or("");
        word.contains('.') && (front.is_empty() || small(front) && !front.starts_with(|c: char| c.is_ascii_digit())) && parts.all(small)
    };
    let mut found = Vec::new();
    for word in words {
        if !projects(word) {
            found.push(word.clone());
            continue;
        }
        for (at, part) in word.split('.').enumerate().filter(|(_, part)| !part.is_empty()) {
            found.push(if at == 0 { part.to_string() } else { format!(".{part}") });
        }
    }
    found
}

/// A `use` line of a file of definitions, or a `ghost use` line of a source; nothing for any other line.
pub fn use_line(line: &str) -> Option<Use> {
    let heads = ["use ", "pub use ", "unfoldable pub use ", "ghost use "];
    let rest = heads.iter().find_map(|head| line.strip_prefix(head))?.trim_end_matches(';').trim();
    if let Some((path, items)) = rest.split_once(".{") {
        let items = items.trim_end_matches('}').split(',').map(|item| {
            let (there, here) = item.split_once(" as ").unwrap_or((item, item.rsplit('.').next().unwrap_or(item)));
            (there.trim().to_string(), here.trim().to_string())
        });
        return Some(Use { path: path.to_string(), items: items.collect(), module: None });
    }
    let (path, name) = rest.split_once(" as ").unwrap_or((rest, rest.rsplit('.').next().unwrap_or(rest)));
    Some(Use { path: path.to_string(), items: Vec::new(), module: Some(name.to_string()) })
}

/// The kind and name of the definition that a line begins, if it begins one.
fn begins(line: &str) -> Option<(Kind, String)> {
    let words = words(line);
    let words: Vec<&str> = words.iter().map(String::as_str).collect();
    let behind = words.iter().position(|word| !["pub", "abbrev", "unfoldable"].contains(word))?;
    match words[behind..] {
        ["record", name, ..] => Some((Kind::Record, name.to_string())),
        ["data", name, ..] => Some((Kind::Data, name.to_string())),
        [name, ":", ..] => Some((Kind::Clauses, name.to_string())),
        _ => None,
    }
}

/// Goes through a file line by line.
struct Reader {
    found: Vec<Definition>,
    comment: Vec<String>,
    /// how far the definitions are set in, and the head of the block that sets them in
    base: usize,
    outer: String,
    outer_lines: usize,
}

/// The definitions of a file, in order.
pub fn definitions(text: &str) -> Vec<Definition> {
    let mut reader = Reader { found: Vec::new(), comment: Vec::new(), base: 0, outer: String::new(), outer_lines: 0 };
    for line in text.lines() {
        reader.line(line);
    }
    reader.found
}

impl Reader {
    /// Takes a line: blank, a comment, of the head, or of a definition.
    fn line(&mut self, line: &str) {
        let text = line.trim_start();
        let indent = line.len() - text.len();
        if text.is_empty() {
            self.comment.clear();
        } else if let Some(comment) = text.strip_prefix("--") {
            if indent <= self.base && !comment.starts_with(" ----") {
                self.comment.push(comment.trim().to_string());
            }
        } else if indent == 0 && self.heading(text) {
            self.comment.clear();
        } else {
            self.code(indent, code(text, "--"));
        }
    }

    /// Takes a line that is no part of a definition: of the file's head, or the head of a block of definitions.
    fn heading(&mut self, text: &str) -> bool {
        let block = text.starts_with("module ");
        self.base = if block { 2 } else { 0 };
        self.outer = if block { text.to_string() } else { String::new() };
        self.outer_lines = usize::from(block);
        block || use_line(text).is_some() || text.starts_with("mod ") || text.starts_with("pub mod ")
    }

    /// Takes a line of a definition: it begins one, begins a piece of the last one, or goes on with its last piece.
    fn code(&mut self, indent: usize, text: &str) {
        if let Some((kind, name)) = begins(text).filter(|_| indent == self.base) {
            let comment = std::mem::take(&mut self.comment).join(" ");
            let (outer, lines) = (self.outer.clone(), std::mem::take(&mut self.outer_lines) + 1);
            let pieces = vec![text.to_string()];
            self.found.push(Definition { name, kind, constructors: Vec::new(), comment, lines, outer, pieces });
            return;
        }
        let Some(last) = self.found.last_mut() else { return };
        last.lines += 1;
        let part = if last.kind == Kind::Clauses { self.base } else { self.base + 2 };
        if indent > part {
            let piece = last.pieces.last_mut().expect("a definition has a first piece");
            *piece = format!("{piece} {text}");
            return;
        }
        last.pieces.push(text.to_string());
        if last.kind == Kind::Data {
            last.constructors.extend(words(text).first().cloned());
        }
    }
}

/// Looks up what a name stands for.
pub type Lookup<'a> = &'a dyn Fn(&str) -> Option<Target>;

/// What a definition cites, itself perhaps too. A bound name hides a definition of its spelling.
pub fn cites(definition: &Definition, lookup: Lookup) -> Vec<Target> {
    let mut walk = Walk::new(lookup, &[]);
    walk.text(&words(&definition.outer));
    let mut bound = walk.bound.clone();
    let head = words(&definition.pieces[0]);
    let name = head.iter().position(|token| *token == definition.name).unwrap_or(0);
    walk.text(&head[name + 1..]);
    if definition.kind != Kind::Clauses {
        bound = walk.bound.clone();
    }
    for piece in &definition.pieces[1..] {
        walk.bound = bound.clone();
        let words = words(piece);
        match definition.kind {
            Kind::Clauses => walk.clause(&words),
            _ => {
                let colon = words.iter().position(|word| word == ":").unwrap_or(0);
                walk.text(&words[colon..]);
                // a field is known to the fields behind it
                bound.extend(colon.checked_sub(1).map(|at| (words[at].clone(), 0)));
            }
        }
    }
    walk.cited
}

/// What the text of a contract cites, over the parameters of its function.
pub fn cited_by(text: &[String], parameters: &[String], lookup: Lookup) -> Vec<Target> {
    let mut walk = Walk::new(lookup, parameters);
    walk.text(text);
    walk.cited
}

/// Goes through a text with the names that are bound in it, each with the depth of brackets at which it is.
struct Walk<'a> {
    lookup: Lookup<'a>,
    bound: Vec<(String, usize)>,
    /// for each open bracket the sign, and the names that are bound behind it
    open: Vec<(String, Vec<String>)>,
    lets: Vec<String>,
    cited: Vec<Target>,
}

impl<'a> Walk<'a> {
    /// At the front of a text, with the parameters bound.
    fn new(lookup: Lookup<'a>, parameters: &[String]) -> Walk<'a> {
        let bound = parameters.iter().map(|name| (name.clone(), 0)).collect();
        Walk { lookup, bound, open: Vec::new(), lets: Vec::new(), cited: Vec::new() }
    }

    /// Binds a name up to the end of the bracket that is open.
    fn bind(&mut self, name: &str) {
        self.bound.push((name.to_string(), self.open.len()));
    }

    /// Cites a name, unless it is bound or names a field.
    fn name(&mut self, name: &str) {
        if !name.starts_with('.') && !self.bound.iter().any(|(bound, _)| bound == name) {
            self.cited.extend((self.lookup)(name));
        }
    }

    /// Cites the constructors of a pattern, and binds its other names.
    fn pattern(&mut self, words: &[String]) {
        for word in words {
            match (self.lookup)(word) {
                Some(target @ (Target::Constructor(_) | Target::Variant(..))) => self.cited.push(target),
                _ => self.bind(word),
            }
        }
    }

    /// A clause: patterns, and behind the first `=` that stands in no bracket a text.
    fn clause(&mut self, words: &[String]) {
        let mut depth = 0;
        let equals = words.iter().position(|word| {
            depth += i32::from(word == "(" || word == "{") - i32::from(word == ")" || word == "}");
            depth == 0 && word == "="
        });
        if let Some(at) = equals {
            self.pattern(&words[..at]);
        }
        self.text(&words[equals.map_or(0, |at| at + 1)..]);
    }

    /// Goes through a text. Each part takes the word that it begins with, and as many more as it gives back.
    fn text(&mut self, words: &[String]) {
        let mut at = 0;
        while at < words.len() {
            let rest = &words[at + 1..];
            at += 1 + match words[at].as_str() {
                sign @ ("(" | "{") => self.opened(sign, rest),
                "[" => self.opened("[", &[]) + self.alternative(rest),
                "|" => self.alternative(rest),
                ")" | "}" | "]" => self.closed(),
                "λ" => self.lambda(rest),
                "let" => self.let_begins(rest),
                "in" => self.let_ends(),
                name => self.plain(name, rest),
            };
        }
    }

    /// A name in a text; one before `=` in braces is a field's.
    fn plain(&mut self, name: &str, rest: &[String]) -> usize {
        let field =
            rest.first().is_some_and(|next| next == "=") && self.open.last().is_some_and(|(sign, _)| sign == "{");
        if !field {
            self.name(name);
        }
        0
    }

    /// An opened bracket. Names up to a colon are bound behind its end.
    fn opened(&mut self, sign: &str, rest: &[String]) -> usize {
        let ends = |word: &String| ["(", ")", "{", "}", "[", "]", ",", ";", "=", ":"].contains(&word.as_str());
        let names = rest.iter().position(ends).filter(|&end| end > 0 && rest[end] == ":").unwrap_or(0);
        self.open.push((sign.to_string(), rest[..names].to_vec()));
        names
    }

    /// A closed bracket: what was bound inside is forgotten, and the names of its front are bound.
    fn closed(&mut self) -> usize {
        let (_, names) = self.open.pop().unwrap_or_default();
        let depth = self.open.len();
        self.bound.retain(|(_, at)| *at <= depth);
        names.iter().for_each(|name| self.bind(name));
        0
    }

    /// An alternative of an `elim`: the names of the last one are forgotten, and those of this one bound.
    fn alternative(&mut self, rest: &[String]) -> usize {
        let end = rest.iter().position(|word| ["↦", "|", "[", "]"].contains(&word.as_str()));
        let Some(end) = end.filter(|&end| rest[end] == "↦") else { return 0 };
        let depth = self.open.len();
        self.bound.retain(|(_, at)| *at < depth);
        self.pattern(&rest[..end]);
        end + 1
    }

    /// The names of a function without a name, up to its dot or its first bracket.
    fn lambda(&mut self, rest: &[String]) -> usize {
        let names = rest.iter().position(|word| [".", "(", "{"].contains(&word.as_str())).unwrap_or(0);
        rest[..names].iter().for_each(|name| self.bind(name));
        names
    }

    /// The name of a `let`, which is known behind its `in`.
    fn let_begins(&mut self, rest: &[String]) -> usize {
        self.lets.extend(rest.first().cloned());
        1
    }

    /// The `in` of the last `let`.
    fn let_ends(&mut self) -> usize {
        if let Some(name) = self.lets.pop() {
            self.bind(&name);
        }
        0
    }
}
