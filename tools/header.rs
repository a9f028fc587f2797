// Holds library/thularek.h and thularek.rs to crate cabinet_c, and that one to cabinet: nothing else compares what C and Rust are told with what is proved.
//
//     rustc --edition 2021 -O -o target/header tools/header.rs && target/header
//
// complains, with status 1, where a prototype is not the one of the function that is exported under its name (result, order,
// names and C types of the parameters; a slice is a pointer and a length), where one of the two has no other, where an
// export has not the parameters, the answer and the clauses of cabinet's function of that name, or does more than call it,
// and where THULAREK_STATE_USED is not the size of `Flat` by C's rules. `--layout` prints where each number of `Flat`
// lies: its place, its size in bytes and its name. `--twin` prints `Flat` in C with an assertion of each place, for a C
// compiler.
use std::collections::BTreeMap;
use std::fs;
use std::process::ExitCode;

const HEADER: &str = "library/thularek.h";
const BINDINGS: &str = "library/thularek.rs";
/// The one function that is written in C, where it stands, and how it is declared.
const MESSAGES: &str = "library/message.c";
const MESSAGE: &str = "const char *thularek_message(uint32_t number)";
const MESSAGE_IN_RUST: &str = "fn thularek_message(number: u32) -> *const std::ffi::c_char";
/// The crates with what C is handed: the exports, the functions that these call and the twin, and the structs that the
/// twin has as they are.
const EXPORTS: &str = "crates/cabinet_c/src";
const CABINET: &str = "crates/cabinet/src";
const OTHERS: [&str; 2] = ["crates/voice/src", "crates/smf/src"];

fn fail(why: &str) -> ! {
    eprintln!("header: {why}");
    std::process::exit(2)
}

fn read(path: &str) -> String {
    fs::read_to_string(path).unwrap_or_else(|error| fail(&format!("{path}: {error}")))
}

/// The source files of a folder, by their names.
fn files(folder: &str) -> Vec<(String, String)> {
    let entries = fs::read_dir(folder).unwrap_or_else(|error| fail(&format!("{folder}: {error}")));
    let mut paths: Vec<_> = entries.flatten().map(|entry| entry.path()).collect();
    paths.sort();
    let is_source = |path: &&std::path::PathBuf| path.extension().is_some_and(|ending| ending == "rt");
    let name = |path: &std::path::Path| path.file_name().unwrap_or_default().to_string_lossy().into_owned();
    paths.iter().filter(is_source).map(|path| (name(path), read(&path.to_string_lossy()))).collect()
}

/// All source files of a folder, one behind the other.
fn sources(folder: &str) -> String {
    files(folder).into_iter().map(|(_, text)| text).collect()
}

/// A text with one space where it has any number of them, line feeds too.
fn spaced(text: &str) -> String {
    text.split_whitespace().collect::<Vec<_>>().join(" ")
}

// ---- The functions

/// A number's type in C.
fn number_in_c(rattle: &str) -> &'static str {
    match rattle {
        "u8" => "uint8_t",
        "u16" => "uint16_t",
        "u32" => "uint32_t",
        "u64" => "uint64_t",
        "i16" => "int16_t",
        "i32" => "int32_t",
        "f32" => "float",
        "usize" => "size_t",
        "Flat" => "thularek",
        _ => fail(&format!("no C type is known for {rattle}")),
    }
}

/// A number's type in Rust.
fn number_in_rust(rattle: &str) -> &str {
    match rattle {
        "Flat" => "Thularek",
        _ => rattle,
    }
}

/// What is lent: its type, whether it is written, and whether it is a slice. Lifetimes mean nothing beyond Rattle.
fn lent(rattle: &str) -> Option<(&str, bool, bool)> {
    let lent = rattle.strip_prefix('&')?.trim_start_matches("'a ");
    let target = lent.strip_prefix("mut ").unwrap_or(lent);
    let element = target.strip_prefix('[').and_then(|slice| slice.strip_suffix(']'));
    Some((element.unwrap_or(target), target != lent, element.is_some()))
}

fn parameter_in_c(name: &str, rattle: &str) -> String {
    let Some((target, written, slice)) = lent(rattle) else { return format!("{} {name}", number_in_c(rattle)) };
    let constant = if written { "" } else { "const " };
    let length = if slice { format!(", size_t {name}_length") } else { String::new() };
    format!("{constant}{} *{name}{length}", number_in_c(target))
}

fn parameter_in_rust(name: &str, rattle: &str) -> String {
    let Some((target, written, slice)) = lent(rattle) else { return format!("{name}: {rattle}") };
    let pointer = if written { "*mut" } else { "*const" };
    let length = if slice { format!(", {name}_length: usize") } else { String::new() };
    format!("{name}: {pointer} {}{length}", number_in_rust(target))
}

/// How an export begins.
const MARK: &str = "#[unsafe(no_mangle)]\n";
const EXPORTED: &str = "pub extern \"C\" fn ";

/// Prototypes by the names of their functions.
type Prototypes = BTreeMap<String, String>;

/// An exported function's name, its parameters with their types, and its answer.
type Export = (String, Vec<(String, String)>, String);

/// An exported function, from the text behind `fn `.
fn exported(text: &str) -> Option<Export> {
    let (head, rest) = text.split_once('(')?;
    let (parameters, rest) = rest.split_once(')')?;
    let answer = rest.trim_start().strip_prefix("-> ")?.split_whitespace().next()?;
    let name = head.split('<').next()?;
    let pairs = parameters.split(',').filter_map(|parameter| parameter.trim().split_once(": "));
    let parameters = pairs.map(|(name, rattle)| (name.to_string(), rattle.to_string())).collect();
    Some((name.to_string(), parameters, answer.to_string()))
}

/// The functions that crate cabinet_c exports.
fn exports() -> Vec<Export> {
    let source = sources(EXPORTS);
    let marked = source.split(MARK).skip(1);
    let heads = marked.map(|text| text.strip_prefix(EXPORTED).and_then(exported));
    heads.map(|head| head.unwrap_or_else(|| fail("an export that cannot be read"))).collect()
}

/// The exports as C and as Rust have to declare them.
fn in_c((name, parameters, answer): &Export) -> (String, String) {
    let parameters: Vec<String> = parameters.iter().map(|(name, rattle)| parameter_in_c(name, rattle)).collect();
    (name.clone(), format!("{} {name}({})", number_in_c(answer), parameters.join(", ")))
}

fn in_rust((name, parameters, answer): &Export) -> (String, String) {
    let parameters: Vec<String> = parameters.iter().map(|(name, rattle)| parameter_in_rust(name, rattle)).collect();
    (name.clone(), format!("fn {name}({}) -> {answer}", parameters.join(", ")))
}

/// A text of C without its comments and without the lines of its preprocessor.
fn bare(text: &str) -> String {
    let mut parts = text.split("/*");
    let mut left = parts.next().unwrap_or_default().to_string();
    for part in parts {
        left += part.split_once("*/").map_or("", |(_, behind)| behind);
    }
    left.lines().filter(|line| !line.starts_with('#')).map(|line| format!("{line}\n")).collect()
}

/// A prototype with the function's name in front.
fn named(prototype: String) -> (String, String) {
    let head = prototype.split('(').next().unwrap_or_default();
    (head.rsplit([' ', '*']).next().unwrap_or_default().to_string(), prototype)
}

/// The prototypes of the header.
fn of_header(header: &str) -> Prototypes {
    let text = bare(header);
    let statements = text.split(';').map(|it| spaced(it.rsplit(['{', '}']).next().unwrap_or(it)));
    statements.filter(|it| it.contains('(') && !it.starts_with("typedef")).map(named).collect()
}

/// A head of a function as if it had room on one line.
fn on_one_line(head: &str) -> String {
    spaced(head).replace("( ", "(").replace(", )", ")")
}

/// The prototypes of the block `extern "C"` of the bindings.
fn of_bindings(bindings: &str) -> Prototypes {
    let block = bindings.split("extern \"C\" {").nth(1).and_then(|rest| rest.split('}').next()).unwrap_or_default();
    block.split(';').map(on_one_line).filter(|it| !it.is_empty()).map(named).collect()
}

/// Where the prototypes of a file are not the exports'. The file may have one of its own, as it is told.
fn differences(file: &str, exports: &Prototypes, told: &Prototypes, own: &str) -> Vec<String> {
    let mut wrong = Vec::new();
    for (name, export) in exports {
        match told.get(name) {
            None => wrong.push(format!("{file} lacks '{export}'")),
            Some(told) if told != export => wrong.push(format!("{file} has '{told}' for '{export}'")),
            Some(_) => {}
        }
    }
    let strange = told.iter().filter(|(name, told)| !exports.contains_key(*name) && *told != own);
    wrong.extend(strange.map(|(_, told)| format!("{file} has '{told}', which is not exported")));
    wrong
}

// ---- The functions behind the exports

/// A function's head with its clauses, and its body, from the text behind `fn `.
fn head_and_body(text: &str) -> Option<(&str, &str)> {
    let (head, rest) = text.split_once("\n{\n")?;
    Some((head, rest.split_once("\n}\n")?.0))
}

/// What the `ghost use` lines of a file bring, each with its module: by them the words of its clauses mean what they mean.
fn ghosts(text: &str) -> Vec<String> {
    let lines = text.lines().filter_map(|line| line.strip_prefix("ghost use ")?.strip_suffix("};"));
    let parts = lines.filter_map(|line| line.split_once(".{"));
    parts.flat_map(|(module, names)| names.split(", ").map(move |name| format!("{module}.{name}"))).collect()
}

/// Where an export is not cabinet's function: its parameters, answer and clauses, in the same words with the same meaning,
/// and a body that calls that function and does nothing else.
fn not_passed_on() -> Vec<String> {
    let cabinet: BTreeMap<String, String> = files(CABINET).into_iter().collect();
    let mut wrong = Vec::new();
    for (file, text) in files(EXPORTS) {
        let own = cabinet.get(&file).map_or("", String::as_str);
        let brought = ghosts(own);
        let strange = ghosts(&text).into_iter().filter(|ghost| !brought.contains(ghost));
        wrong.extend(strange.map(|ghost| format!("{EXPORTS}/{file} brings {ghost}, and {CABINET}/{file} does not")));
        for export in text.split(MARK).skip(1) {
            let export = export.strip_prefix(EXPORTED).unwrap_or(export);
            let Some((name, parameters, _)) = exported(export) else { fail("an export that cannot be read") };
            let Some((head, body)) = head_and_body(export) else { fail(&format!("{name} cannot be read")) };
            let behind = |mark: &str| own.split_once(&format!("\npub fn {name}{mark}"));
            let function = behind("(").or_else(|| behind("<")).map(|(before, _)| &own[before.len() + 8..]);
            match function.and_then(head_and_body) {
                None => wrong.push(format!("{CABINET}/{file} has no function {name}")),
                Some((its, _)) if on_one_line(its) != on_one_line(head) => {
                    wrong.push(format!("{name} is exported as '{}', and is '{}'", on_one_line(head), on_one_line(its)))
                }
                Some(_) => {}
            }
            let names: Vec<&str> = parameters.iter().map(|(name, _)| name.as_str()).collect();
            let call = format!("cabinet::{name}({})", names.join(", "));
            if on_one_line(body) != call {
                wrong.push(format!("{name} is exported by '{}', and not by '{call}'", on_one_line(body)));
            }
        }
    }
    wrong
}

/// What is wrong with the exports, and with the prototypes of both files.
fn complaints(header: &str) -> Vec<String> {
    let exports = exports();
    if exports.is_empty() {
        fail("crate cabinet_c exports nothing");
    }
    let (c, rust): (Prototypes, Prototypes) =
        (exports.iter().map(in_c).collect(), exports.iter().map(in_rust).collect());
    let mut wrong = not_passed_on();
    wrong.extend(differences(HEADER, &c, &of_header(header), MESSAGE));
    wrong.extend(differences(BINDINGS, &rust, &of_bindings(&read(BINDINGS)), MESSAGE_IN_RUST));
    if !spaced(&read(MESSAGES)).contains(&format!("{MESSAGE} {{")) {
        wrong.push(format!("{MESSAGES} lacks '{MESSAGE}'"));
    }
    wrong
}

// ---- The state

/// The structs that are laid out as C lays them out: their fields with their types, by name.
type Structs = BTreeMap<String, Vec<(String, String)>>;

fn structs() -> Structs {
    let source: String = [CABINET].iter().chain(&OTHERS).map(|folder| sources(folder)).collect();
    let mut found = Structs::new();
    for text in source.split("#[repr(C)]\n").skip(1) {
        let text = text.strip_prefix("#[derive(Clone, Copy)]\n").unwrap_or(text);
        let text = text.strip_prefix("pub struct ").unwrap_or_else(|| fail("a struct that cannot be read"));
        let (name, rest) = text.split_once(" {").unwrap_or_else(|| fail("a struct that cannot be read"));
        let body = rest.split('}').next().unwrap_or_default();
        let fields = body.lines().filter_map(|line| line.trim().strip_prefix("pub "));
        let pairs = fields.filter_map(|field| field.trim_end_matches(',').split_once(": "));
        found.insert(name.to_string(), pairs.map(|(name, kind)| (name.to_string(), kind.to_string())).collect());
    }
    found
}

/// The lines of a layout, as far as it is written, and the place behind its last number.
struct Layout {
    structs: Structs,
    lines: Vec<String>,
}

fn rounded(at: usize, alignment: usize) -> usize {
    at.div_ceil(alignment) * alignment
}

/// An array's element and length.
fn array(kind: &str) -> Option<(&str, usize)> {
    let (element, length) = kind.strip_prefix('[')?.strip_suffix(']')?.split_once("; ")?;
    Some((element, length.parse().ok()?))
}

impl Layout {
    fn fields(&self, kind: &str) -> Vec<(String, String)> {
        self.structs.get(kind).cloned().unwrap_or_else(|| fail(&format!("no struct {kind} is laid out as in C")))
    }

    fn number(kind: &str) -> Option<usize> {
        let bits = kind.strip_prefix(['u', 'i', 'f'])?.parse::<usize>().ok()?;
        Some(bits / 8)
    }

    fn alignment(&self, kind: &str) -> usize {
        if let Some((element, _)) = array(kind) {
            return self.alignment(element);
        }
        let of_fields = || self.fields(kind).iter().map(|(_, kind)| self.alignment(kind)).max().unwrap_or(1);
        Self::number(kind).unwrap_or_else(of_fields)
    }

    /// Puts a value of a type at a place, and gives back the place behind it.
    fn put(&mut self, name: &str, kind: &str, at: usize) -> usize {
        if let Some(size) = Self::number(kind) {
            self.lines.push(format!("{at} {size} {name}"));
            return at + size;
        }
        let mut place = at;
        if let Some((element, length)) = array(kind) {
            for i in 0..length {
                place = self.put(&format!("{name}[{i}]"), element, place);
            }
            return place;
        }
        for (field, field_kind) in self.fields(kind) {
            let begin = rounded(place, self.alignment(&field_kind));
            place = self.put(&format!("{name}.{field}"), &field_kind, begin);
        }
        rounded(place, self.alignment(kind))
    }
}

/// A field in C.
fn field_in_c(name: &str, kind: &str) -> String {
    let type_in_c = |kind: &str| match kind {
        "i32" => "int32_t".to_string(),
        _ if kind.starts_with(char::is_uppercase) => kind.to_string(),
        _ => number_in_c(kind).to_string(),
    };
    match array(kind) {
        Some((element, length)) => format!("{} {name}[{length}];", type_in_c(element)),
        None => format!("{} {name};", type_in_c(kind)),
    }
}

/// The structs that a type has in it and then itself, in C, each once.
fn structs_in_c(layout: &Layout, kind: &str, written: &mut Vec<String>) -> String {
    let kind = array(kind).map_or(kind, |(element, _)| element);
    if Layout::number(kind).is_some() || written.iter().any(|name| name == kind) {
        return String::new();
    }
    written.push(kind.to_string());
    let fields = layout.fields(kind);
    let inner: String = fields.iter().map(|(_, kind)| structs_in_c(layout, kind, written)).collect();
    let own: Vec<String> = fields.iter().map(|(name, kind)| field_in_c(name, kind)).collect();
    format!("{inner}typedef struct {kind} {{ {} }} {kind};\n", own.join(" "))
}

/// `Flat` as a struct of C, with an assertion of each place of the layout.
fn twin(layout: &Layout) -> String {
    let mut text = "#include \"thularek.h\"\n".to_string();
    text += &structs_in_c(layout, "Flat", &mut Vec::new());
    text += "_Static_assert(sizeof(Flat) == THULAREK_STATE_USED, \"size\");\n";
    for line in &layout.lines {
        let (place, rest) = line.split_once(' ').unwrap_or_default();
        let name = rest.split_once(" state.").unwrap_or_default().1;
        text += &format!("_Static_assert(offsetof(Flat, {name}) == {place}, \"{name}\");\n");
    }
    text
}

fn main() -> ExitCode {
    let mut layout = Layout { structs: structs(), lines: Vec::new() };
    let size = layout.put("state", "Flat", 0);
    match std::env::args().nth(1).as_deref() {
        Some("--layout") => {
            layout.lines.iter().for_each(|line| println!("{line}"));
            return ExitCode::SUCCESS;
        }
        Some("--twin") => {
            print!("{}", twin(&layout));
            return ExitCode::SUCCESS;
        }
        Some(_) => fail("usage: header [--layout|--twin]"),
        None => {}
    }
    let header = read(HEADER);
    let mut wrong = complaints(&header);
    if !header.contains(&format!("#define THULAREK_STATE_USED {size}\n")) {
        wrong.push(format!("THULAREK_STATE_USED is {size}"));
    }
    wrong.iter().for_each(|complaint| println!("header: {complaint}"));
    if !wrong.is_empty() {
        return ExitCode::FAILURE;
    }
    println!("{} prototypes as exported, a state of {size} bytes", exports().len());
    ExitCode::SUCCESS
}
