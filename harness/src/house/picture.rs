//! The picture of the crates: one row a layer, each crate as low as what it names allows, drawn from crates.txt.

use super::sources::crates;
use std::collections::BTreeMap;
use std::fs;
use std::path::Path;

/// Whether a crate has definitions and laws alone: no function in its sources.
fn is_definitions(root: &Path, name: &str) -> bool {
    let folder = root.join("crates").join(name).join("src");
    let entries = fs::read_dir(folder).expect("sources");
    let mut texts = entries.map(|entry| fs::read_to_string(entry.expect("an entry").path()).expect("a source"));
    texts.all(|text| !text.lines().any(|line| line.starts_with("fn ") || line.starts_with("pub fn ") || line.contains("extern \"C\" fn ")))
}

/// The rows from the top down. A crate of definitions stands in brackets.
pub fn picture(root: &Path) -> String {
    let crates = crates(root);
    let mut height: BTreeMap<&str, usize> = BTreeMap::new();
    for (name, uses) in &crates {
        let above = uses.iter().filter_map(|other| height.get(other.as_str())).max().map_or(0, |below| below + 1);
        height.insert(name, above);
    }
    let top = height.values().max().copied().unwrap_or(0);
    let mut text = String::new();
    for row in (0..=top).rev() {
        let here = crates.iter().filter(|(name, _)| height[name.as_str()] == row);
        let drawn = here.map(|(name, _)| if is_definitions(root, name) { format!("[{name}]") } else { name.clone() });
        text.push_str(&format!("{row:>3} │ {}\n", drawn.collect::<Vec<_>>().join("  ")));
    }
    text
}
