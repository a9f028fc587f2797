// For tools/stack, which says what it is about: the frames of the compiled engine along the longest chain of calls.
//
//     chains CALLS ASSEMBLY SIZES    for each call, of names with `|` between them, the frames along its longest chain, and the chain
use std::collections::HashMap;
use std::process::ExitCode;
use std::{env, fs};

fn main() -> ExitCode {
    let arguments: Vec<String> = env::args().skip(1).collect();
    let [calls, assembly, sizes] = &arguments[..] else { return ExitCode::from(2) };
    let read = |path: &str| fs::read_to_string(path).unwrap_or_else(|error| panic!("{path}: {error}"));
    let functions = compiled(&read(assembly), &read(sizes));
    println!("frames along the longest chain of calls, without memcpy, memset and memmove of the C library:");
    for name in calls.split('|') {
        let (bytes, chain) = longest(&functions, name);
        println!("{bytes:8} bytes  {}", chain.join(" > "));
    }
    ExitCode::SUCCESS
}

/// A function's frame with the address that its caller pushes, and what it calls.
#[derive(Default)]
struct Compiled {
    frame: usize,
    calls: Vec<String>,
}

/// The functions, as the compiler tells them: the assembly has the calls, the sizes have the frames.
fn compiled(assembly: &str, sizes: &str) -> HashMap<String, Compiled> {
    let mut functions: HashMap<String, Compiled> = HashMap::new();
    for line in sizes.lines() {
        // module.ll:NAME, a tab, the bytes, a tab, `static`
        let parts: Vec<&str> = line.split('\t').collect();
        let name = parts[0].split_once(':').unwrap().1;
        assert_eq!(parts[2], "static", "{name} has a frame of no fixed size");
        functions.entry(name.to_string()).or_default().frame = parts[1].parse::<usize>().unwrap() + 8;
    }
    let mut inside = String::new();
    for line in assembly.lines() {
        let words: Vec<&str> = line.split_whitespace().collect();
        let named = |word: &str| word.trim_end_matches("@PLT").trim_matches('"').to_string();
        match words[..] {
            [label, ..] if !line.starts_with('\t') && label.ends_with(':') => {
                let name = label.trim_end_matches(':').trim_matches('"');
                if functions.contains_key(name) {
                    inside = name.to_string();
                }
            }
            ["callq" | "jmp", to, ..] if !to.starts_with(".L") => {
                assert!(!to.starts_with('*') || words[0] == "jmp", "{inside} calls what it finds in a register");
                functions.get_mut(&inside).unwrap().calls.push(named(to));
            }
            _ => {}
        }
    }
    functions
}

fn longest(functions: &HashMap<String, Compiled>, name: &str) -> (usize, Vec<String>) {
    let Some(function) = functions.get(name) else { return (0, Vec::new()) };
    let below = function.calls.iter().map(|called| longest(functions, called)).max().unwrap_or_default();
    (function.frame + below.0, [vec![name.to_string()], below.1].concat())
}
