//! Any words and any damaged file: the program answers with one of its statuses, prints one
//! JSON value where JSON is wished, and never panics.

mod common;

use common::{folder, json, put, sample, small_batch, Random};
use std::ffi::OsString;

const STATUSES: [u8; 6] = [0, 64, 65, 66, 74, 75];

fn pick<'a>(random: &mut Random, from: &[&'a str]) -> &'a str {
    from[random.below(from.len())]
}

fn run(words: &[&str]) -> u8 {
    let json = rvf_tool::words::wishes(&words.iter().map(OsString::from).collect::<Vec<_>>(), "--json");
    let outcome = rvf_tool::run(words.iter().map(OsString::from).collect(), &mut &b"1 2 3\n"[..]);
    assert!(STATUSES.contains(&outcome.status) || (1..=14).contains(&outcome.status), "{words:?}");
    // A check says what it found on standard output; lost batches are said of on standard error too.
    assert!(outcome.messages.is_empty() || outcome.status != 0, "{words:?}: {}", outcome.messages);
    assert!(!outcome.messages.is_empty() || [0, 65].contains(&outcome.status), "{words:?}");
    if json {
        json::must_be_valid(String::from_utf8(outcome.output).expect("text").trim_end());
    }
    outcome.status
}

/// One test, because it works in a folder of its own: words may name new files.
#[test]
fn any_words_and_any_file() {
    std::env::set_current_dir(folder("any")).expect("the folder is there");
    let mut random = Random::new();
    any_words(&mut random);
    any_file(&mut random);
}

fn any_words(random: &mut Random) {
    put("batch".as_ref(), &small_batch());
    let commands = ["list", "check", "get", "append", "retire", "compact", "salvage", "help", "file", "--json"];
    let words = [
        "file", "file", "file", "batch", "batch", "empty", "missing", ".", "-", "", "1", "2", "30", "18446744073709551616", "--",
        "--json", "--help", "--version", "--create", "--segment", "--component", "--to", "--retire", "--time", "--vectors",
        "-h", "-V", "-q", "--dry-run", "--wait=0", "--round", "--no-final-newline", "--accept-older", "--discard-tail", "--retire=2",
    ];
    let mut seen = std::collections::BTreeSet::new();
    for _ in 0..8_000 {
        refresh("file", &sample("clean.rvf"));
        refresh("empty", b"");
        let mut chosen = vec![pick(random, &commands)];
        chosen.extend((0..random.below(7)).map(|_| pick(random, &words)));
        seen.insert(run(&chosen));
    }
    // The words must have come together to something now and then.
    assert!([0, 2, 8, 11, 64, 65, 66].iter().all(|status| seen.contains(status)), "{seen:?}");
}

fn any_file(random: &mut Random) {
    let files = ["clean.rvf", "torn.rvf", "damaged.rvf", "nested.rvf"].map(sample);
    for round in 0..600 {
        let mut file = files[random.below(files.len())].clone();
        for _ in 0..1 + random.below(3) {
            damage(random, &mut file);
        }
        refresh("file", &file);
        for words in ["list file", "check file", "get file 7", "get file --segment 2", "compact file --dry-run"] {
            run(&format!("{words} --json").split(' ').collect::<Vec<_>>());
        }
        // What is written waits for the disk, so it comes only now and then.
        if round % 20 == 0 {
            let _ = std::fs::remove_file("new");
            run(&["salvage", "file", "new", "--json"]);
            run(&["compact", "file", "--json"]);
            run(&["append", "file", "batch", "--json"]);
        }
    }
}

/// Makes a file anew where it is not as wanted. It is removed first: some systems wait for
/// the disk when a file is emptied and written again.
fn refresh(name: &str, bytes: &[u8]) {
    if std::fs::read(name).ok().as_deref() != Some(bytes) {
        let _ = std::fs::remove_file(name);
        put(name.as_ref(), bytes);
    }
}

fn damage(random: &mut Random, file: &mut Vec<u8>) {
    let at = random.below(file.len());
    match random.below(6) {
        0 => file.truncate(at + 1),
        1 => file[at] = random.below(256) as u8,
        // The front of what may be a header.
        2 => file[at / 64 * 64] ^= 1,
        3 => file[(at / 64 * 64 + 5).min(at)] ^= 1,
        _ => file[at] ^= 1 << random.below(8),
    }
}
