//! Prints what docs/ARCHITECTURE.md and docs/CLAIMS.md say of the crates: the picture, and the files to believe with their lines.

use rvf_harness::house::{closure, picture};
use std::path::Path;

fn main() {
    let root = Path::new(env!("CARGO_MANIFEST_DIR")).join("..");
    print!("{}", picture::picture(&root));
    let files = closure::reached(&root);
    for file in &files {
        println!("{} {} {}", file.path, file.lines, file.names.join(" "));
        if !file.laws.is_empty() {
            println!("    laws there: {}", file.laws.join(" "));
        }
    }
    let ruled = closure::reached_by_the_rules(&root).iter().map(|file| file.lines).sum::<usize>();
    println!("{} lines in {} files, {ruled} for the rules' calls and the claim", files.iter().map(|file| file.lines).sum::<usize>(), files.len());
}
