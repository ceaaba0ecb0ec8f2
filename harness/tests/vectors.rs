//! Runs the vector files: the subset in the repository always, the whole sets where they
//! stand beside the checkout, that of document 01 and that of the newest request. Every line
//! goes to the reference; every line whose call the library has goes to the library too.

use rvf_harness::calls::{Calls, Reference};
#[cfg(feature = "linked")]
use rvf_harness::ffi::Library;
use rvf_harness::vectors::{self, Summary};
use std::path::Path;

/// The kinds of lines of document 01.
const KINDS: [&str; 11] = [
    "append",
    "component",
    "entry",
    "idmap_read",
    "idmap_write",
    "list",
    "open",
    "payload",
    "vec_check",
    "vec_write",
    "vector",
];
/// Those that came with document 02.
const LATER: [&str; 4] = ["compact", "crc32c", "varint_read", "varint_write"];
/// The set of the newest request, and that of document 01, which goes on to hold but for the
/// lines that a request has changed.
const NEWEST: &str = "../../shared/vectors/02-L02-s4.txt";
const FIRST: &str = "../../shared/vectors/01.txt";
/// By line number: 591, a chain with a reserved type, which §4 no longer stops at.
const CHANGED: [usize; 1] = [591];

fn read(path: &str) -> Option<String> {
    let path = Path::new(env!("CARGO_MANIFEST_DIR")).join(path);
    path.exists().then(|| std::fs::read_to_string(path).expect("a vector file is text"))
}

fn run(name: &str, text: &str, calls: &dyn Calls) -> Summary {
    let summary = vectors::run(text, calls);
    println!("{name}, {}: {:?}, skipped {}", calls.name(), summary.run, summary.skipped);
    assert!(
        summary.differences.is_empty(),
        "{name}, {}: {} differences\n{}",
        calls.name(),
        summary.differences.len(),
        summary.differences[..summary.differences.len().min(20)].join("\n")
    );
    summary
}

fn run_all(name: &str, text: &str, later: &[&str]) {
    let reference = run(name, text, &Reference);
    assert_eq!(reference.skipped, 0);
    for kind in KINDS.iter().chain(later).copied() {
        assert!(reference.run.contains_key(kind), "{name} has no line of the kind {kind}");
    }
    #[cfg(feature = "linked")]
    {
        // Every line whose layer is linked must have run, and no other.
        let library = run(name, text, &Library);
        for kind in KINDS.iter().chain(later).copied() {
            let wanted = if Library.has(vectors::layer(kind)) { reference.run.get(kind) } else { None };
            assert_eq!(library.run.get(kind), wanted, "{name}: lines of {kind} against the library");
        }
    }
}

#[test]
fn subset_in_the_repository() {
    run_all("subset", &read("vectors/subset.txt").expect("the subset is part of the repository"), &LATER);
}

/// The subset shows every answer number that a line of its kind can have in the set.
#[test]
fn subset_has_every_kind_of_answer() {
    let subset = read("vectors/subset.txt").expect("the subset is part of the repository");
    let answers = |kind: &str| {
        let prefix = format!("{kind} ");
        let lines = subset.lines().filter(|line| line.starts_with(&prefix));
        let numbers = lines.filter_map(|line| line.split(" = ").nth(1)?.split(' ').next()?.parse::<u32>().ok());
        numbers.collect::<std::collections::BTreeSet<_>>().into_iter().collect::<Vec<_>>()
    };
    assert_eq!(answers("append"), [0, 1, 2, 5, 6, 7, 9, 10, 11, 12, 13]);
    assert_eq!(answers("compact"), [0, 2, 4, 9]);
    assert_eq!(answers("component"), [0, 2, 4, 5, 6, 7, 8]);
    assert_eq!(answers("vector"), [0, 2, 4, 5, 6, 7, 8, 9]);
    assert_eq!(answers("payload"), [0, 1, 2, 3, 4, 15]);
    assert_eq!(answers("open"), [0, 1, 2]);
    assert_eq!(answers("entry"), [0, 2, 255]);
    assert_eq!(answers("vec_check"), [0, 5, 6, 7]);
    assert_eq!(answers("vec_write"), [0, 9, 14]);
    assert_eq!(answers("idmap_read"), [0, 5, 9]);
    assert_eq!(answers("idmap_write"), [0, 9, 14]);
    assert_eq!(answers("varint_read"), [0, 5]);
    assert_eq!(answers("varint_write"), [0, 9]);
}

#[test]
fn whole_sets_where_they_exist() {
    match read(NEWEST) {
        Some(text) => run_all(NEWEST, &text, &LATER),
        None => println!("no {NEWEST} beside this checkout"),
    }
    match read(FIRST) {
        Some(text) => {
            let changed = vectors::run(&text, &Reference).differences;
            let lines = CHANGED.map(|line| format!("line {line}: "));
            assert!(changed.len() == lines.len() && changed.iter().zip(&lines).all(|(one, line)| one.starts_with(line)), "{changed:?}");
            let kept = text.lines().enumerate().filter(|(index, _)| !CHANGED.contains(&(index + 1)));
            run_all(FIRST, &kept.map(|(_, line)| line).collect::<Vec<_>>().join("\n"), &[]);
        }
        None => println!("no {FIRST} beside this checkout"),
    }
}
