//! The lister: the library's text against the reference, and the program on stored cases.

use rvf_harness::calls::Reference;
use rvf_harness::ffi::Library;
use rvf_harness::gen::batches::vector_file;
use rvf_harness::gen::{batch_of, damage, files, Rng};
use rvf_harness::reference::{append::append, limits};
use rvf_harness::runner;
use std::io::Write;
use std::path::{Path, PathBuf};
use std::process::{Command, Stdio};

fn root() -> PathBuf {
    Path::new(env!("CARGO_MANIFEST_DIR")).join("..")
}

/// What the program prints about a file.
fn printed(file: &[u8]) -> String {
    let program = root().join("crates/rvf_list/out/rvf_list");
    let mut child = Command::new(&program)
        .stdin(Stdio::piped())
        .stdout(Stdio::piped())
        .spawn()
        .unwrap_or_else(|error| panic!("{}: {error}; 'rt run' in crates/rvf_list builds it", program.display()));
    // The program stops reading one byte above its limit, and may close its input before all is written.
    let _ = child.stdin.take().expect("its input is piped").write_all(file);
    let output = child.wait_with_output().expect("the program ends");
    assert!(output.status.success());
    String::from_utf8(output.stdout).expect("a list is text")
}

/// The library and the reference, with room, with exactly enough, with less; and the binding.
fn compared(file: &[u8]) -> String {
    let wanted = runner::list(&Reference, file, limits::LIST_ROOM);
    let length = wanted.written.len();
    for room in [limits::LIST_ROOM, length + 1, length, length - 1, length / 2, 0] {
        assert_eq!(runner::list(&Library, file, room), runner::list(&Reference, file, room), "a buffer of {room}");
    }
    let text = String::from_utf8(wanted.written).expect("a list is text");
    assert_eq!(rvf::list(file), text);
    text
}

fn generated(rng: &mut Rng) -> Vec<u8> {
    let mut file = if rng.once_in(3) { vector_file(rng).bytes } else { files::file(rng) };
    if rng.once_in(2) {
        damage(rng, &mut file);
    }
    file
}

#[test]
fn lists_of_generated_files() {
    let mut rng = Rng::new(0x1157);
    let (mut lists, mut bad, mut retired) = (0, 0, 0);
    for round in 0..4_000 {
        let file = generated(&mut rng);
        let text = compared(&file);
        lists += usize::from(text.contains("\nend "));
        bad += usize::from(text.contains(" bad\n"));
        retired += usize::from(text.contains(" retired "));
        if round % 20 == 0 {
            assert_eq!(printed(&file), text);
        }
    }
    // The cases are worth something: many lists, damaged and retired segments among them.
    assert!(lists > 1_000 && bad > 100 && retired > 100, "{lists} lists, {bad} bad, {retired} retired");
}

/// A file of a length: one body fills it up to its manifest.
fn filled(length: usize) -> Vec<u8> {
    let mut file = vec![0; length];
    // A header, the body, a header, and the payload of a manifest with one entry.
    let body = vec![0xA5; length - 64 - 64 - 4_160];
    let (end, ..) = append(&mut file, 0, &batch_of(&[(7, 0, &body)]), &[], 9).expect("the file has room");
    assert_eq!(end, length);
    file
}

/// Each case with what the program must print, stored.
#[test]
fn stored_cases() {
    let sample = |name: &str| std::fs::read(root().join("samples").join(name)).expect("the sample is in the repository");
    let (limit, mut above) = (filled(limits::LISTED), filled(limits::LISTED));
    above.push(0);
    let cases = [
        ("worked", sample("worked.rvf")),
        ("clean", sample("clean.rvf")),
        ("torn", sample("torn.rvf")),
        ("damaged", sample("damaged.rvf")),
        ("compacted", sample("compacted.rvf")),
        ("nested", sample("nested.rvf")),
        ("restarts", sample("restarts.rvf")),
        ("kinds", sample("kinds.rvf")),
        ("partner", sample("partner.rvf")),
        ("flipped_padding", sample("flipped_padding.rvf")),
        ("flipped_header", sample("flipped_header.rvf")),
        ("flipped_manifest", sample("flipped_manifest.rvf")),
        ("empty", Vec::new()),
        ("limit", limit),
        ("above_limit", above),
    ];
    for (name, file) in cases {
        let stored = root().join("samples/lists").join(format!("{name}.txt"));
        let wanted = std::fs::read_to_string(&stored).unwrap_or_else(|error| panic!("{}: {error}", stored.display()));
        assert_eq!(printed(&file), wanted, "{name}");
        assert_eq!(compared(&file), wanted, "{name}");
    }
}

/// The program's own stored run is the example of the rules.
#[test]
fn the_programs_own_case_is_the_worked_example() {
    let read = |path: &str| std::fs::read(root().join(path)).expect("the file is in the repository");
    assert_eq!(read("crates/rvf_list/stdin"), read("samples/worked.rvf"));
    assert_eq!(read("crates/rvf_list/stdout"), read("samples/lists/worked.txt"));
}

/// The longest list: as many entries as a listed file can have, with ids of twenty digits.
#[test]
fn the_longest_list() {
    let of = |bodies: usize| {
        let mut file = files::Builder::new(0, u64::MAX - 600);
        (0..bodies).for_each(|_| {
            file.body(0xF3, 0, 1, b"");
        });
        file.manifest(0, 1, &[]);
        file.bytes
    };
    let file = of(547);
    assert_eq!(file.len(), limits::LISTED - 64);
    let text = compared(&file);
    assert_eq!(text.lines().count(), 550);
    assert_eq!(printed(&file), text);
    assert_eq!(compared(&of(548)), "refused 1\n");
}
