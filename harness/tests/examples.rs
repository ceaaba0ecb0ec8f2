//! The examples: built, run, and what they print compared. The C one is compiled against the
//! header and the static library with all warnings as errors.

use std::path::{Path, PathBuf};
use std::process::Command;

fn root() -> PathBuf {
    Path::new(env!("CARGO_MANIFEST_DIR")).join("..")
}

/// What a command prints; it must succeed.
fn printed(command: &mut Command) -> String {
    let ran = command.output().unwrap_or_else(|error| panic!("{command:?}: {error}"));
    assert!(ran.status.success(), "{command:?}: {}", String::from_utf8_lossy(&ran.stderr));
    String::from_utf8(ran.stdout).expect("text is printed")
}

#[test]
fn c_example_prints_the_vector() {
    let program = Path::new(env!("CARGO_TARGET_TMPDIR")).join("first_file");
    printed(
        Command::new("cc")
            .args(["-std=c99", "-O2", "-Wall", "-Wextra", "-Wpedantic", "-Werror", "-I"])
            .arg(root().join("include"))
            .arg(root().join("examples/c/first_file.c"))
            .arg(root().join("crates/rvf_c/out/librvf_c.a"))
            .arg("-o")
            .arg(&program),
    );
    // The body takes 192 bytes with its header and padding, as the rules' worked body of
    // 100 bytes does, so the file ends where that one does.
    let expected = "file of 4416 bytes, manifest 1, entries 1\nvector 21: 3.5 -3 900.25\nvector 22: refused 8\n";
    assert_eq!(printed(&mut Command::new(&program)), expected);
}

#[test]
fn rust_example_prints_the_newest_live_position() {
    let text = printed(
        Command::new(env!("CARGO"))
            .args(["run", "--quiet", "--offline", "--example", "positions", "--manifest-path"])
            .arg(root().join("bindings/rust/Cargo.toml"))
            .arg("--target-dir")
            .arg(Path::new(env!("CARGO_TARGET_TMPDIR")).join("binding")),
    );
    let expected = "4416 bytes, vector 7: 1.5 -2 700.25\n8960 bytes, vector 7: 1.75 -2.5 701\n\
                    13376 bytes, vector 7: 1.5 -2 700.25\n\
                    vector 8: refused 8: there is no such vector, or its dim is not above the component's index\n";
    assert_eq!(text, expected);
}
