//! The repository as a reader of its definitions needs it: crates in order, files of definitions, sources with their
//! functions and contracts, what each name stands for, and what a host's contracts and the statements rest on.
use crate::antt::{self, Definition, Kind, Place, Target, Use};
use crate::source::{self, files, read, Function, Source};
use std::collections::{BTreeSet, HashMap};
use std::path::Path;

/// A file of definitions: `module` is its path below specs/, as `Internal.Words`.
pub struct Specs {
    pub krate: String,
    pub path: String,
    pub module: String,
    /// the first line of a file that a program makes: its rule
    pub table: Option<String>,
    pub definitions: Vec<Definition>,
    uses: Vec<Use>,
}

impl Specs {
    /// Whether it stands in specs/Internal.
    pub fn internal(&self) -> bool {
        self.module.starts_with("Internal.")
    }
}

/// All crates, read and linked.
pub struct Tree {
    pub crates: Vec<String>,
    /// the libraries of the kit that crates.txt names, and those that it never does
    pub of_kit: Vec<String>,
    pub specs: Vec<Specs>,
    pub sources: Vec<Source>,
    /// the definitions that laws and proofs cite, and those that the ones of crate promises do
    pub in_proofs: BTreeSet<Target>,
    pub in_promises: BTreeSet<Target>,
    /// for each definition what it cites
    edges: HashMap<Place, Vec<Target>>,
    /// names that lead nowhere, each as a line
    pub lost: Vec<String>,
}

/// What a name before a dot stands for.
#[derive(Clone)]
enum Module {
    Specs(usize),
    Type(String, String),
    Variants(String, String),
}

/// The names of a file: of things, and of modules.
#[derive(Default)]
struct Scope {
    names: HashMap<String, Target>,
    modules: HashMap<String, Module>,
}

/// The crates of crates.txt, each behind those that it stands on, and else in the order of the lines.
pub fn crates() -> Vec<String> {
    let text = read("crates.txt");
    let lines = text.lines().map(|line| line.split('#').next().unwrap_or(""));
    let mut left: Vec<(&str, Vec<&str>)> = lines
        .filter_map(|line| line.split_once(':'))
        .filter_map(|(name, on)| Some((name.split_whitespace().next()?, on.split_whitespace().collect())))
        .collect();
    let mut ordered = Vec::new();
    while !left.is_empty() {
        let free = |on: &[&str]| !left.iter().any(|(name, _)| on.contains(name));
        let next = left.iter().position(|(_, on)| free(on)).unwrap_or(0);
        ordered.push(left.remove(next).0.to_string());
    }
    ordered
}

/// The libraries of the kit: those that crates.txt has behind a colon and not in front of one, std, and core below it.
fn of_kit(crates: &[String]) -> Vec<String> {
    let text = read("crates.txt");
    let lines = text.lines().filter_map(|line| line.split('#').next().unwrap_or("").split_once(':'));
    let named = lines.flat_map(|(_, on)| on.split_whitespace()).map(str::to_string);
    named.filter(|name| !crates.contains(name)).chain(["std".to_string(), "core".to_string()]).collect()
}

/// Reads a file of definitions.
fn read_specs(krate: &str, path: &Path) -> Specs {
    let text = read(path);
    let root = format!("crates/{krate}/specs");
    let module = path.strip_prefix(root).unwrap_or(path).with_extension("").to_string_lossy().replace('/', ".");
    let first = text.lines().next().unwrap_or("").trim_start_matches("-- ").to_string();
    let table = text.lines().take(5).any(|line| line.starts_with("-- Made by:")).then_some(first);
    let uses = text.lines().filter_map(antt::use_line).collect();
    let definitions = antt::definitions(&text);
    Specs { krate: krate.to_string(), path: path.to_string_lossy().to_string(), module, table, definitions, uses }
}

/// The files of a crate's definitions in the order in which its root names them, which is the order to read them in.
fn order_of(krate: &str) -> Vec<String> {
    let root = std::fs::read_to_string(format!("crates/{krate}/specs/Lib.antt")).unwrap_or_default();
    root.lines().filter_map(|line| line.strip_prefix("pub mod ")).map(str::to_string).collect()
}

impl Tree {
    /// Reads the repository that it is run in.
    pub fn load() -> Tree {
        let crates = crates();
        let (mut specs, mut sources) = (Vec::new(), Vec::new());
        for krate in &crates {
            let found = files(&format!("crates/{krate}/specs"), "antt");
            let mut these: Vec<Specs> = found.iter().map(|path| read_specs(krate, path)).collect();
            these.retain(|file| file.module != "Lib" && file.module != "Internal");
            let order = order_of(krate);
            these.sort_by_key(|file| (file.internal(), order.iter().position(|name| *name == file.module)));
            specs.extend(these);
            sources.extend(
                files(&format!("crates/{krate}/src"), "rt").iter().map(|path| source::read_source(krate, path)),
            );
        }
        let (in_proofs, in_promises) = (BTreeSet::new(), BTreeSet::new());
        let of_kit = of_kit(&crates);
        let mut tree = Tree { crates, of_kit, specs, sources, in_proofs, in_promises, edges: HashMap::new(), lost: Vec::new() };
        tree.link();
        tree.read_proofs();
        tree
    }

    /// Finds what each definition cites.
    fn link(&mut self) {
        let mut lost = Vec::new();
        let mut edges = HashMap::new();
        for (file, specs) in self.specs.iter().enumerate() {
            let mut scope = self.scope(&specs.uses, &specs.path, &mut lost);
            for (at, definition) in specs.definitions.iter().enumerate() {
                scope.own(definition, (file, at));
            }
            let lookup = |name: &str| self.resolve(&scope, name);
            for (at, definition) in specs.definitions.iter().enumerate() {
                edges.insert((file, at), antt::cites(definition, &lookup));
            }
        }
        self.edges = edges;
        self.lost = lost;
    }

    /// Finds the definitions that laws and proofs name; a `use` line alone is no citation.
    fn read_proofs(&mut self) {
        let (mut all, mut promises) = (BTreeSet::new(), BTreeSet::new());
        for krate in &self.crates {
            for path in files(&format!("crates/{krate}/proofs"), "antt") {
                let text = read(path);
                let uses: Vec<Use> = text.lines().filter_map(antt::use_line).collect();
                let scope = self.scope(&uses, "", &mut Vec::new());
                let lines =
                    text.lines().filter(|line| antt::use_line(line).is_none() && !line.trim().starts_with("--"));
                let words = lines.flat_map(antt::words);
                let found: Vec<Target> = words.filter_map(|name| self.resolve(&scope, &name)).collect();
                promises.extend(found.iter().filter(|_| krate == "promises").cloned());
                all.extend(found);
            }
        }
        (self.in_proofs, self.in_promises) = (all, promises);
    }

    /// The definition at a place.
    pub fn definition(&self, place: Place) -> &Definition {
        &self.specs[place.0].definitions[place.1]
    }

    /// The module of a path such as `Rattle.arith.specs.Words`, where it is one of definitions or declared types.
    fn module(&self, path: &str) -> Option<Module> {
        let (krate, rest) = path.strip_prefix("Rattle.")?.split_once(".specs.")?;
        // a type that no file's name leads to stands behind its file's, as in declared.answers.Refusal
        match rest.split('.').collect::<Vec<_>>()[..] {
            ["declared", .., name, "TheVariants"] => Some(Module::Variants(krate.to_string(), name.to_string())),
            ["declared", .., name] => Some(Module::Type(krate.to_string(), name.to_string())),
            _ => self.specs.iter().position(|file| file.krate == krate && file.module == rest).map(Module::Specs),
        }
    }

    /// What a name of a module stands for; one that a file only passes on is looked up where it comes from.
    fn member(&self, module: &Module, name: &str) -> Option<Target> {
        let file = match module {
            Module::Type(krate, of) => return Some(Target::Type(krate.clone(), of.clone())),
            Module::Variants(krate, of) => return Some(Target::Variant(krate.clone(), of.clone())),
            Module::Specs(file) => *file,
        };
        let mut scope = Scope::default();
        for (at, definition) in self.specs[file].definitions.iter().enumerate() {
            scope.own(definition, (file, at));
        }
        let passed = || {
            let (from, there) = self.specs[file].uses.iter().find_map(|line| {
                line.items.iter().find(|(_, here)| here == name).map(|(there, _)| (&line.path, there))
            })?;
            self.member(&self.module(from)?, there)
        };
        scope.names.remove(name).or_else(passed)
    }

    /// Whether a path leads into a library of the kit, whose words no reader looks up here.
    fn of_kit(&self, path: &str) -> bool {
        let krate = path.strip_prefix("Rattle.").and_then(|rest| rest.split('.').next());
        krate.is_none_or(|krate| self.of_kit.iter().any(|name| name == krate))
    }

    /// The names that `use` lines bring. Those that lead nowhere are lost names of the file.
    fn scope(&self, uses: &[Use], file: &str, lost: &mut Vec<String>) -> Scope {
        let mut scope = Scope::default();
        for line in uses.iter().filter(|line| !self.of_kit(&line.path)) {
            let module = self.module(&line.path);
            if module.is_none() {
                lost.push(format!("{file}: there is no {}", line.path));
            }
            for (there, here) in &line.items {
                match module.as_ref().and_then(|module| self.member(module, there)) {
                    Some(target) => scope.bring(here, target),
                    None => lost.push(format!("{file}: {} has no {there}", line.path)),
                }
            }
            if let (Some(name), Some(module)) = (&line.module, module) {
                scope.modules.insert(name.clone(), module);
            }
        }
        scope
    }

    /// What a name stands for in a scope: a thing, a thing of a module, a constructor behind its type, or a whole path.
    fn resolve(&self, scope: &Scope, name: &str) -> Option<Target> {
        if let Some(target) = scope.names.get(name) {
            return Some(target.clone());
        }
        let (head, last) = name.rsplit_once('.')?;
        match (scope.modules.get(head), scope.names.get(head)) {
            (Some(module), _) => self.member(module, last),
            (None, Some(target)) => Some(target.clone()),
            (None, None) => self.member(&self.module(head)?, last),
        }
    }
}

impl Scope {
    /// Brings a name in. The parts of an operator stand for it too, as `+` for `◌+◌`.
    fn bring(&mut self, name: &str, target: Target) {
        for part in name.split('◌').filter(|part| !part.is_empty()) {
            self.names.insert(part.to_string(), target.clone());
        }
        self.names.insert(name.to_string(), target);
    }

    /// Brings in a definition of the file itself, with its constructors.
    fn own(&mut self, definition: &Definition, place: Place) {
        self.bring(&definition.name, Target::Definition(place));
        for constructor in definition.constructors.iter().filter(|_| definition.kind == Kind::Data) {
            self.bring(constructor, Target::Constructor(place));
        }
    }
}

/// What a path leads to: a function with its file, or a type by its crate and its name.
enum Led<'a> {
    Function(&'a Source, &'a Function),
    Type(&'a str, &'a str),
}

/// What a reader has to hold against the scope document: definitions, tables among them, and types of the source.
#[derive(Default)]
pub struct Reached {
    pub definitions: BTreeSet<Place>,
    pub types: BTreeSet<(String, String)>,
}

impl Tree {
    /// All that some names rest on.
    fn closure(&self, from: Vec<Target>) -> Reached {
        let mut reached = Reached::default();
        let mut left = from;
        while let Some(target) = left.pop() {
            match target {
                Target::Type(krate, name) | Target::Variant(krate, name) => {
                    reached.types.insert((krate, name));
                }
                Target::Definition(place) | Target::Constructor(place) => {
                    if reached.definitions.insert(place) {
                        left.extend(self.edges[&place].iter().cloned());
                    }
                }
            }
        }
        reached
    }

    /// What the head and the contract of a function cite.
    fn cited_by(&self, source: &Source, function: &Function, lost: &mut Vec<String>) -> Vec<Target> {
        let scope = self.scope(&source.uses, &format!("crates/{}/src/{}.rt", source.krate, source.module), lost);
        let lookup = |name: &str| self.resolve(&scope, name);
        let contract: Vec<String> = function.contract.iter().flat_map(|clause| clause.words.clone()).collect();
        let mut cited = antt::cited_by(&contract, &function.parameters, &lookup);
        cited.extend(function.types.iter().filter_map(|name| self.declared(source, name)));
        cited
    }

    /// The type that a path in a source file leads to, by the crate that declares it; nothing for a type of the kit and for a letter.
    fn declared(&self, source: &Source, name: &str) -> Option<Target> {
        let path: Vec<String> = name.split("::").map(str::to_string).collect();
        let brought = source.paths.iter().map(|(_, brought)| brought).find(|brought| brought.last() == path.first());
        let own = [source.module.clone()];
        let front = match brought {
            Some(brought) => &brought[..brought.len() - 1],
            None if path.len() == 1 => &own,
            None => &[],
        };
        match self.led(&source.krate, &[front, &path].concat())? {
            Led::Type(krate, name) => Some(Target::Type(krate.to_string(), name.to_string())),
            Led::Function(..) => None,
        }
    }

    /// Looks names up as they stand in a source file.
    pub fn names_in_source(&self, source: &Source) -> impl Fn(&str) -> Option<Target> + '_ {
        let scope = self.scope(&source.uses, "", &mut Vec::new());
        move |name| self.resolve(&scope, name)
    }

    /// Looks names up as they stand in a file of definitions.
    pub fn names_in_specs(&self, file: usize) -> impl Fn(&str) -> Option<Target> + '_ {
        let mut scope = self.scope(&self.specs[file].uses, "", &mut Vec::new());
        for (at, definition) in self.specs[file].definitions.iter().enumerate() {
            scope.own(definition, (file, at));
        }
        move |name| self.resolve(&scope, name)
    }

    /// The function that a path of a crate leads to; an empty list for a type, and nothing where it leads nowhere.
    pub fn follow(&self, krate: &str, path: &[String]) -> Option<Vec<(&Source, &Function)>> {
        match self.led(krate, path)? {
            Led::Function(source, function) => Some(vec![(source, function)]),
            Led::Type(..) => Some(Vec::new()),
        }
    }

    /// What a crate that passes a path on lets others call by it: the function that it leads to, or the public methods of the type.
    pub fn passed_on(&self, krate: &str, path: &[String]) -> Option<Vec<(&Source, &Function)>> {
        match self.led(krate, path)? {
            Led::Function(source, function) => Some(vec![(source, function)]),
            Led::Type(krate, name) => Some(self.methods(krate, name)),
        }
    }

    /// The public methods of a type, wherever in its crate their `impl` stands.
    fn methods(&self, krate: &str, name: &str) -> Vec<(&Source, &Function)> {
        let sources = self.sources.iter().filter(|source| source.krate == krate);
        let all = sources.flat_map(|source| source.functions.iter().map(move |function| (source, function)));
        all.filter(|(_, function)| function.public && function.of.as_deref() == Some(name)).collect()
    }

    /// The function or the type that a path of a crate leads to.
    fn led<'a>(&'a self, krate: &str, path: &[String]) -> Option<Led<'a>> {
        let (name, first) = (path.last()?, path.first()?.as_str());
        let inside = self.sources.iter().any(|source| source.krate == krate && source.module == first);
        let (krate, module) = match first {
            "crate" => (krate, if path.len() > 2 { path[1].as_str() } else { "lib" }),
            _ if inside => (krate, first),
            _ => (first, if path.len() > 2 { path[1].as_str() } else { "lib" }),
        };
        let source = self.sources.iter().find(|source| source.krate == krate && source.module == module)?;
        if let Some(function) = source.functions.iter().find(|function| function.name == *name && function.of.is_none()) {
            return Some(Led::Function(source, function));
        }
        if let Some(name) = source.types.iter().find(|own| *own == name) {
            return Some(Led::Type(&source.krate, name));
        }
        let passed = source.paths.iter().find(|(public, path)| *public && path.last() == Some(name));
        self.led(krate, &passed?.1)
    }

    /// All functions that a host may call: what the roots of engine, wave, riff, player and cabinet pass on, what is asked of a
    /// bank's bytes alone, reader's public ones, and those of the roots of smf and merge; and the public methods of the types that
    /// these roots pass on or declare, and that the heads of these functions name.
    pub fn host_functions(&self, lost: &mut Vec<String>) -> Vec<(&Source, &Function)> {
        let mut found = Vec::new();
        let of_bytes = [("bank", "admission"), ("bank", "past_memory"), ("layers", "preset_sheet")];
        let beside = of_bytes.map(|(krate, name)| (true, vec![krate.to_string(), name.to_string()]));
        for krate in ["engine", "wave", "riff", "player", "cabinet"] {
            let root = self.sources.iter().find(|source| source.krate == krate && source.module == "lib");
            let passed = root.iter().flat_map(|root| &root.paths).filter(|(public, _)| *public);
            let others = beside.iter().filter(|_| krate == "engine");
            for (_, path) in passed.chain(others) {
                match self.passed_on(krate, path) {
                    Some(functions) => found.extend(functions),
                    None => lost.push(format!("crates/{krate}/src/lib.rt: {} leads nowhere", path.join("::"))),
                }
            }
        }
        let has_root = |krate: &str| krate == "smf" || krate == "merge";
        let is_root =
            |source: &&Source| source.krate == "reader" || has_root(&source.krate) && source.module == "lib";
        for source in self.sources.iter().filter(is_root) {
            found.extend(source.functions.iter().filter(|function| function.public).map(|function| (source, function)));
        }
        let roots = ["engine", "wave", "riff", "player", "cabinet", "smf", "merge", "reader"];
        for root in self.sources.iter().filter(|source| source.module == "lib" && roots.contains(&source.krate.as_str())) {
            found.extend(root.types.iter().flat_map(|name| self.methods(&root.krate, name)));
        }
        let named = |(source, function): &(&Source, &Function)| -> Vec<Target> {
            function.types.iter().filter_map(|name| self.declared(source, name)).collect()
        };
        let of_heads: BTreeSet<Target> = found.iter().flat_map(named).collect();
        for target in of_heads {
            if let Target::Type(krate, name) = target {
                found.extend(self.methods(&krate, &name));
            }
        }
        let mut seen = BTreeSet::new();
        found.retain(|(_, function)| seen.insert(std::ptr::from_ref(*function)));
        found
    }

    /// The statements: types among the definitions of crate promises that its proofs name, and the sentences of the other
    /// crates that proofs name.
    pub fn statements(&self) -> Vec<Target> {
        let is_promise = |target: &&Target| match target {
            Target::Definition(place) => self.specs[place.0].krate == "promises" && self.definition(*place).is_type(),
            _ => false,
        };
        let is_sentence = |target: &&Target| match target {
            Target::Definition(place) => self.definition(*place).is_sentence(),
            _ => false,
        };
        let promised = self.in_promises.iter().filter(is_promise);
        let found: BTreeSet<&Target> = promised.chain(self.in_proofs.iter().filter(is_sentence)).collect();
        found.into_iter().cloned().collect()
    }

    /// What a host's contracts and the statements rest on.
    pub fn believed(&self, lost: &mut Vec<String>) -> Reached {
        let mut from = self.statements();
        for (source, function) in self.host_functions(lost) {
            from.extend(self.cited_by(source, function, lost));
        }
        self.closure(from)
    }

    /// The definitions among them that a reader goes through, in order; those of tables are left out.
    pub fn to_believe(&self, believed: &Reached) -> Vec<Place> {
        let by_eye = |place: &&Place| self.specs[place.0].table.is_none();
        believed.definitions.iter().filter(by_eye).copied().collect()
    }

    /// The lines of some definitions: signatures and clauses, with no comment and no blank line.
    pub fn lines(&self, places: &[Place]) -> usize {
        places.iter().map(|place| self.definition(*place).lines).sum()
    }

    /// What the contracts of all functions, ghost fields and ghost members rest on.
    pub fn cited_by_contracts(&self, lost: &mut Vec<String>) -> Reached {
        let mut from = Vec::new();
        for source in &self.sources {
            for function in &source.functions {
                from.extend(self.cited_by(source, function, lost));
            }
            let scope = self.scope(&source.uses, &format!("crates/{}/src/{}.rt", source.krate, source.module), lost);
            from.extend(antt::cited_by(&source.ghosts, &[], &|name: &str| self.resolve(&scope, name)));
        }
        self.closure(from)
    }
}
