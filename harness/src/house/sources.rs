//! The declarations of the specifications, read as text: which names a file declares, and which names of other files it brings in.

use std::collections::{BTreeMap, BTreeSet, HashMap};
use std::fs;
use std::path::{Path, PathBuf};

/// A module of definitions or lemmas: the crate, and the path below it, as `specs.chain.Chain` or `proofs.Theorem`.
pub type Module = (String, String);

/// The folders of a crate that have such modules.
pub const PARTS: [&str; 2] = ["specs", "proofs"];

/// A declaration: of a definition all its lines, of a law the statement alone.
#[derive(Clone, Debug, Default)]
pub struct Declaration {
    pub name: String,
    pub is_law: bool,
    pub lines: Vec<String>,
    /// The heads of the sections that it stands in: their parameters' types belong to the statement.
    pub section: Vec<String>,
}

impl Declaration {
    /// The lines to believe: equations, fields and constructors. The line of a type is not counted.
    pub fn weight(&self) -> usize {
        let lines = self.lines.iter().filter(|line| !line.trim().is_empty() && !line.trim().starts_with("--"));
        lines.count().saturating_sub(usize::from(!self.is_law))
    }
}

/// A file: its declarations in order, and the imported names with the module and the name there.
#[derive(Debug, Default)]
pub struct Source {
    pub path: PathBuf,
    pub declarations: Vec<Declaration>,
    pub imports: HashMap<String, (Module, String)>,
    pub aliases: HashMap<String, Module>,
}

/// Every module of definitions or lemmas below `crates/`.
pub fn read_all(root: &Path) -> BTreeMap<Module, Source> {
    let mut all = BTreeMap::new();
    for (name, _) in crates(root) {
        let home = root.join("crates").join(&name);
        for path in PARTS.iter().flat_map(|part| files(&home.join(part))) {
            let below = path.strip_prefix(&home).expect("it lies below").with_extension("");
            let module: Vec<_> = below.iter().map(|part| part.to_string_lossy().into_owned()).collect();
            let text = fs::read_to_string(&path).expect("a readable file");
            let mut source = Source { path: path.strip_prefix(root).expect("below").into(), ..Source::default() };
            (source.imports, source.aliases) = imports(&text, "use ");
            source.declarations = declarations(&text);
            all.insert((name.clone(), module.join(".")), source);
        }
    }
    all
}

/// The crates of crates.txt, in its order, with those that each names. A static library says so behind its name.
pub fn crates(root: &Path) -> Vec<(String, Vec<String>)> {
    let text = fs::read_to_string(root.join("crates.txt")).expect("crates.txt");
    let lines = text.lines().filter(|line| !line.starts_with('#')).filter_map(|line| line.split_once(':'));
    let words = |list: &str| list.split_whitespace().map(str::to_string).collect();
    lines.map(|(said, list)| (said.strip_suffix(" staticlib").unwrap_or(said).to_string(), words(list))).collect()
}

fn files(folder: &Path) -> Vec<PathBuf> {
    let Ok(entries) = fs::read_dir(folder) else { return Vec::new() };
    let mut found = Vec::new();
    for path in entries.map(|entry| entry.expect("an entry").path()) {
        match path.extension() {
            Some(end) if end == "antt" => found.push(path),
            _ => found.extend(files(&path)),
        }
    }
    found.sort();
    found
}

/// The module that a path names, as `Rattle.octets.specs.le.Le`.
fn module(path: &str) -> Option<Module> {
    let (name, below) = path.strip_prefix("Rattle.")?.split_once('.')?;
    let (part, _) = below.split_once('.')?;
    PARTS.contains(&part).then(|| (name.to_string(), below.to_string()))
}

/// The names that the lines with this beginning bring in, and the modules that they name.
pub fn imports(text: &str, begin: &str) -> (HashMap<String, (Module, String)>, HashMap<String, Module>) {
    let (mut names, mut aliases) = (HashMap::new(), HashMap::new());
    for line in text.lines().filter_map(|line| line.strip_prefix(begin)) {
        let line = line.trim_end_matches(';');
        if let Some((path, list)) = line.strip_suffix('}').and_then(|line| line.split_once(".{")) {
            let Some(module) = module(path) else { continue };
            for item in list.split(',').map(str::trim) {
                let (there, here) = item.split_once(" as ").unwrap_or((item, item));
                names.insert(here.to_string(), (module.clone(), there.to_string()));
            }
        } else {
            let (path, short) = line.split_once(" as ").unwrap_or((line, line.rsplit('.').next().unwrap_or(line)));
            if let Some(module) = module(path) {
                aliases.insert(short.to_string(), module);
            }
        }
    }
    (names, aliases)
}

fn indent(line: &str) -> usize {
    line.len() - line.trim_start().len()
}

/// The name that a line begins to declare, and whether it is a law.
fn head(line: &str) -> Option<(String, bool)> {
    let mut words = line.split_whitespace().peekable();
    let mut is_law = true;
    while let Some(word) = words.next_if(|word| ["unfoldable", "abbrev", "opaque", "pub"].contains(word)) {
        is_law &= word == "pub";
    }
    let first = words.next()?;
    if first == "record" || first == "data" {
        return words.next().map(|name| (name.to_string(), false));
    }
    (words.next() == Some(":")).then(|| (first.to_string(), is_law))
}

fn declarations(text: &str) -> Vec<Declaration> {
    let mut found: Vec<Declaration> = Vec::new();
    let mut sections: Vec<(usize, String)> = Vec::new();
    let mut open_section = false;
    let mut in_statement = false;
    for line in text.lines() {
        let trimmed = line.trim_start();
        if trimmed.is_empty() || trimmed.starts_with("--") || line.starts_with("use ") || line.starts_with("pub mod ") {
            continue;
        }
        let at = indent(line);
        if open_section {
            sections.last_mut().expect("a section").1.push_str(line);
            open_section = !line.trim_end().ends_with("where");
            continue;
        }
        while sections.last().is_some_and(|(inner, _)| at < *inner) {
            sections.pop();
        }
        let level = sections.last().map_or(0, |(inner, _)| *inner);
        if at == level && trimmed.starts_with("module ") {
            sections.push((at + 2, line.to_string()));
            open_section = !line.trim_end().ends_with("where");
            continue;
        }
        let section = || sections.iter().map(|(_, head)| head.clone()).collect();
        match head(line) {
            Some((name, is_law)) if at == level => {
                found.push(Declaration { name, is_law, lines: vec![line.to_string()], section: section() });
                in_statement = true;
            }
            _ => {
                // A law's statement ends where its proof begins, at a line as far out as the statement.
                in_statement &= at > level;
                let Some(last) = found.last_mut() else { continue };
                if !last.is_law || in_statement {
                    last.lines.push(line.to_string());
                }
            }
        }
    }
    found
}

/// The words of some lines, without comments; a path `a.b` counts by its parts too.
pub fn words<'a>(lines: impl IntoIterator<Item = &'a String>) -> BTreeSet<String> {
    let mut found = BTreeSet::new();
    for line in lines {
        let line = line.split("-- ").next().unwrap_or("");
        for word in line.split(|c: char| c.is_whitespace() || "(){}[],;".contains(c)) {
            let word = word.trim_start_matches('.');
            found.insert(word.to_string());
            found.extend(word.split('.').map(str::to_string));
        }
    }
    found
}
