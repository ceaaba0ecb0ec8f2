//! What must be believed: every definition that a contract of a public call or a statement of the claim reaches, file by file.

use super::sources::{imports, read_all, words, Declaration, Module, Source, PARTS};
use std::collections::{BTreeMap, BTreeSet};
use std::fs;
use std::path::Path;

/// The public calls by their files, with the functions where a file has others; the theorems about the rules' calls and the claim; and those
/// of the later requests.
const CALLS: [(&str, &[&str]); 4] = [
    ("crates/rvf_c/src", &[]),
    ("crates/lookup/src/payload.rt", &["payload"]),
    ("crates/lookup/src/vector.rt", &["component"]),
    ("crates/append/src/lib.rt", &["append"]),
];
type Theorem = (&'static str, &'static str, &'static str);
const THEOREMS: [Theorem; 4] = [
    ("claim", "Theorem", "demand3"),
    ("claim", "Theorem", "closed_run"),
    ("reading", "ReadFrom", "vector_read"),
    ("worked", "Proved", "table"),
];
const OF_REQUESTS: [Theorem; 6] = [
    ("compacting", "Theorem", "compacted"),
    ("claim", "LaterHolds", "later_appends"),
    ("claim", "LaterHolds", "starts_anew"),
    ("manifest", "FormerLaws", "stays_confirmed"),
    ("manifest", "FormerLaws", "found_stays"),
    ("manifest", "FormerLaws", "opens_as_before"),
];

/// A file that a reviewer reads, by the lines to believe in it; and the laws that it holds besides.
pub struct Reached {
    pub path: String,
    pub lines: usize,
    pub names: Vec<String>,
    pub laws: Vec<String>,
}

/// The contracts in a source file, of all its functions or of some: from a clause's first word to the body's brace.
fn contracts(text: &str, functions: &[&str]) -> Vec<String> {
    let mut found = Vec::new();
    let (mut wanted, mut clause) = (functions.is_empty(), false);
    for line in text.lines().filter(|line| !line.trim_start().starts_with("//")) {
        if !functions.is_empty() && line.contains("fn ") {
            wanted = functions.iter().any(|name| ["(", "<"].iter().any(|end| line.contains(&format!("fn {name}{end}"))));
        }
        let begins = ["requires ", "ensures "].iter().any(|word| line.trim_start().starts_with(word));
        clause = (clause || begins) && line != "{";
        if wanted && clause {
            found.push(line.to_string());
        }
    }
    found
}

fn sources_of(root: &Path, place: &str) -> Vec<String> {
    let path = root.join(place);
    if path.is_file() {
        return vec![fs::read_to_string(path).expect("a source")];
    }
    let entries = fs::read_dir(path).expect("a folder of sources");
    entries.map(|entry| fs::read_to_string(entry.expect("an entry").path()).expect("a source")).collect()
}

struct Search<'a> {
    all: &'a BTreeMap<Module, Source>,
    by_name: BTreeMap<(Module, String), (&'a Module, usize)>,
    seen: BTreeSet<(Module, usize)>,
    todo: Vec<(Module, usize)>,
}

impl Search<'_> {
    fn add(&mut self, module: &Module, name: &str) {
        if let Some((home, index)) = self.by_name.get(&(module.clone(), name.to_string())) {
            let item = ((*home).clone(), *index);
            if self.seen.insert(item.clone()) {
                self.todo.push(item);
            }
        }
    }

    fn add_words(&mut self, found: &BTreeSet<String>, home: Option<&Module>, source: &Source) {
        for word in found {
            if let Some(module) = home.filter(|module| self.by_name.contains_key(&((*module).clone(), word.clone()))) {
                self.add(&module.clone(), word);
            } else if let Some((module, name)) = source.imports.get(word) {
                self.add(module, name);
            } else if let Some((short, name)) = word.split_once('.') {
                if let Some(module) = source.aliases.get(short) {
                    self.add(module, name);
                }
            }
        }
    }
}

/// A declaration's name, and a data type's constructors.
fn names(declaration: &Declaration) -> Vec<String> {
    let mut found = vec![declaration.name.clone()];
    if declaration.lines[0].split_whitespace().any(|word| word == "data") {
        found.extend(declaration.lines[1..].iter().filter_map(|line| line.split_whitespace().next().map(str::to_string)));
    }
    found
}

/// Every file with a definition that is reached, in the order of their paths.
pub fn reached(root: &Path) -> Vec<Reached> {
    reached_from(root, &[&THEOREMS[..], &OF_REQUESTS[..]].concat())
}

/// The same without the theorems that the later requests brought.
pub fn reached_by_the_rules(root: &Path) -> Vec<Reached> {
    reached_from(root, &THEOREMS)
}

fn reached_from(root: &Path, theorems: &[Theorem]) -> Vec<Reached> {
    let all = read_all(root);
    let mut by_name = BTreeMap::new();
    for (module, source) in &all {
        for (index, declaration) in source.declarations.iter().enumerate() {
            for name in names(declaration) {
                by_name.insert((module.clone(), name), (module, index));
            }
        }
    }
    let mut search = Search { all: &all, by_name, seen: BTreeSet::new(), todo: Vec::new() };
    for (place, functions) in CALLS {
        for text in sources_of(root, place) {
            let (imports, aliases) = imports(&text, "ghost use ");
            let source = Source { imports, aliases, ..Source::default() };
            search.add_words(&words(&contracts(&text, functions)), None, &source);
        }
    }
    for (name, module, theorem) in theorems.iter().copied() {
        let places = PARTS.map(|part| (name.to_string(), format!("{part}.{module}")));
        let homes: Vec<_> = places.iter().filter(|home| search.by_name.contains_key(&((*home).clone(), theorem.to_string()))).collect();
        assert_eq!(homes.len(), 1, "{theorem} stands in {} files {module} of {name}, and not in one", homes.len());
        search.add(homes[0], theorem);
    }
    while let Some((module, index)) = search.todo.pop() {
        let source = &search.all[&module];
        let declaration = &source.declarations[index];
        let found = words(declaration.lines.iter().chain(&declaration.section));
        search.add_words(&found, Some(&module), source);
    }
    let mut files: BTreeMap<&Module, Reached> = BTreeMap::new();
    for (module, index) in &search.seen {
        let (module, source) = all.get_key_value(module).expect("it is there");
        let declaration = &source.declarations[*index];
        let path = source.path.to_string_lossy().into_owned();
        let laws = source.declarations.iter().filter(|other| other.is_law).map(|law| law.name.clone()).collect();
        let file = files.entry(module).or_insert(Reached { path, lines: 0, names: Vec::new(), laws });
        file.lines += declaration.weight();
        file.names.push(declaration.name.clone());
    }
    files.into_values().collect()
}
