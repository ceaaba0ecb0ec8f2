//! What docs/ARCHITECTURE.md and docs/CLAIMS.md say of the crates is computed from the sources, and held against them.

use rvf_harness::house::{closure, picture, sources};
use std::path::{Path, PathBuf};

/// The lines to believe for the rules' calls and the claim together.
const MOST_LINES: usize = 700;
/// The files with a theorem that CLAIMS names, by crate and module: their proofs stand beside it.
const THEOREMS: [(&str, &str); 6] = [
    ("claim", "Theorem"),
    ("claim", "LaterHolds"),
    ("compacting", "Theorem"),
    ("manifest", "FormerLaws"),
    ("reading", "ReadFrom"),
    ("worked", "Proved"),
];

/// Whether a file is one of those, among the crate's definitions or among its lemmas.
fn has_a_theorem(path: &str) -> bool {
    let places = |(name, module)| sources::PARTS.map(|part| format!("crates/{name}/{part}/{module}.antt"));
    THEOREMS.into_iter().flat_map(places).any(|place| place == path)
}

fn root() -> PathBuf {
    Path::new(env!("CARGO_MANIFEST_DIR")).join("..")
}

fn document(name: &str) -> String {
    std::fs::read_to_string(root().join("docs").join(name)).expect("the document")
}

#[test]
fn the_picture_is_that_of_crates_txt() {
    let drawn = format!("```\n{}```\n", picture::picture(&root()));
    assert!(document("ARCHITECTURE.md").contains(&drawn), "docs/ARCHITECTURE.md lacks this picture:\n{drawn}");
}

/// Every file with a definition that a public call's contract or a theorem reaches has its row, with its lines.
#[test]
fn the_claims_list_every_file_to_believe() {
    let claims = document("CLAIMS.md");
    let files = closure::reached(&root());
    let rows: Vec<_> = files.iter().filter(|file| !has_a_theorem(&file.path)).collect();
    let missing: Vec<_> =
        rows.iter().map(|file| format!("| `{}` | {} |", file.path, file.lines)).filter(|row| !claims.contains(row)).collect();
    assert!(missing.is_empty(), "docs/CLAIMS.md lacks these rows:\n{}", missing.join("\n"));
    let listed = claims.lines().filter(|line| line.starts_with("| `crates/") && line.contains(".antt`")).count();
    assert_eq!(listed, rows.len(), "docs/CLAIMS.md lists files that nothing reaches");
    let lines: usize = files.iter().map(|file| file.lines).sum();
    let ruled: usize = closure::reached_by_the_rules(&root()).iter().map(|file| file.lines).sum();
    assert!(ruled <= MOST_LINES, "{ruled} lines to believe for the rules' calls and the claim");
    assert!(claims.contains(&format!("{lines} lines in {} files", files.len())), "it is {lines} lines in {} files", files.len());
}

/// A reviewer opens definition files only: no law stands in one.
#[test]
fn definitions_stand_in_files_of_their_own() {
    let mixed = closure::reached(&root()).into_iter().filter(|file| !has_a_theorem(&file.path) && !file.laws.is_empty());
    let told: Vec<_> = mixed.map(|file| format!("{}: {}", file.path, file.laws.join(" "))).collect();
    assert!(told.is_empty(), "laws beside definitions:\n{}", told.join("\n"));
}
