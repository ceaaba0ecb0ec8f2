//! The first batch of a store: the whole file or none, whoever else is at it.

mod common;

use common::{appended, bytes_of, folder, put, rvf, sample, small_batch, text, Place};
use std::path::{Path, PathBuf};

/// A place whose file is not there.
fn missing(name: &str) -> Place {
    let place = Place::new(name, b"", &small_batch());
    std::fs::remove_file(&place.file).expect("it is there");
    place
}

fn temporary(place: &Place) -> PathBuf {
    place.file.with_file_name(".f.rvf.rvf-new")
}

fn once() -> Vec<u8> {
    appended(&[], &small_batch(), &[], 5).expect("accepted")
}

/// What a kill has left beside it is used up, and nothing but the file stays.
#[test]
fn what_a_kill_has_left_is_used_up() {
    let place = missing("create-left");
    put(&temporary(&place), &[7; 100_000]);
    assert_eq!(place.append(&["--create", "--time", "5"]).status, 0);
    assert!(bytes_of(&place.file) == once() && !temporary(&place).exists());
    let names = std::fs::read_dir(place.file.parent().expect("a folder")).expect("it is there").count();
    assert_eq!(names, 2);
}

/// An empty file keeps its permissions, and a link to one stays a link.
#[cfg(unix)]
#[test]
fn an_empty_file_stays_what_it_is() {
    use std::os::unix::fs::PermissionsExt;
    let place = Place::new("create-empty", b"", &small_batch());
    std::fs::set_permissions(&place.file, std::fs::Permissions::from_mode(0o640)).expect("it is ours");
    let link = place.file.with_file_name("link");
    std::os::unix::fs::symlink("f.rvf", &link).expect("a link");
    assert_eq!(rvf(&["append", text(&link), text(&place.batch), "--time", "5"]).status, 0);
    assert!(std::fs::symlink_metadata(&link).expect("it is there").is_symlink());
    let mode = std::fs::metadata(&place.file).expect("it is there").permissions().mode();
    assert!(bytes_of(&place.file) == once() && mode & 0o777 == 0o640, "{mode:o}");
    // Behind a link of the temporary file's name nothing is written.
    let place = missing("create-link");
    put(&place.file.with_file_name("mine"), b"mine");
    std::os::unix::fs::symlink("mine", temporary(&place)).expect("a link");
    let ran = place.append(&["--create"]);
    assert!(ran.status == 74 && ran.stderr.contains("is a link in the way"), "{}", ran.stderr);
    assert!(bytes_of(&place.file.with_file_name("mine")) == b"mine" && !place.file.exists());
    // A link that leads nowhere is not replaced.
    let nowhere = place.file.with_file_name("nowhere");
    std::os::unix::fs::symlink("gone", &nowhere).expect("a link");
    let ran = rvf(&["append", text(&nowhere), text(&place.batch), "--create"]);
    assert_eq!(ran.status, 66, "{}", ran.stderr);
    assert!(std::fs::symlink_metadata(&nowhere).expect("it is there").is_symlink());
}

/// A first batch that fails leaves no file: a name that is too long, a folder that is not there.
#[test]
fn a_failed_create_leaves_no_file() {
    let folder = folder("create-failed");
    let batch = folder.join("batch");
    put(&batch, &small_batch());
    let long = folder.join("n".repeat(250));
    for path in [long.as_path(), &folder.join("no/such/f.rvf"), Path::new("/proc/f.rvf")] {
        let ran = rvf(&["append", text(path), text(&batch), "--create"]);
        assert_eq!((ran.status, ran.text()), (74, ""), "{}", ran.stderr);
        assert!(!path.exists());
    }
    assert_eq!(std::fs::read_dir(&folder).expect("it is there").count(), 1);
}

/// The write fails, as on a full disk: nothing is left, and an empty file stays empty.
#[cfg(unix)]
#[test]
fn a_write_that_fails_leaves_no_file() {
    let limited = |place: &Place| {
        let script = "trap '' XFSZ; ulimit -f 2; exec \"$0\" append \"$1\" \"$2\" --create";
        let mut shell = std::process::Command::new("sh");
        shell
            .args(["-c", script, env!("CARGO_BIN_EXE_rvf")])
            .args([&place.file, &place.batch])
            .output()
            .expect("the shell runs")
    };
    let place = missing("create-full");
    let ran = limited(&place);
    assert_eq!(ran.status.code(), Some(74));
    let said = String::from_utf8_lossy(&ran.stderr).into_owned();
    assert!(said.ends_with("; no file was made\n"), "{said}");
    assert!(!place.file.exists() && !temporary(&place).exists());
    let place = Place::new("create-full-empty", b"", &small_batch());
    let ran = limited(&place);
    assert!(String::from_utf8_lossy(&ran.stderr).ends_with("; the file is empty as before\n"));
    assert!(bytes_of(&place.file).is_empty() && !temporary(&place).exists());
}

/// Many first batches at once, with and without an empty file: one starts the store, the
/// others are appended to it or turned away, and none is lost.
#[test]
fn many_first_batches_at_once() {
    for round in 0..6 {
        let place =
            if round % 2 == 0 { missing("create-many") } else { Place::new("create-many", b"", &small_batch()) };
        let words: &[&str] =
            if round < 3 { &["--create", "--time", "9"] } else { &["--create", "--time", "9", "--wait", "20"] };
        let statuses: Vec<i32> = std::thread::scope(|scope| {
            let runs: Vec<_> = (0..8).map(|_| scope.spawn(|| place.append(words).status)).collect();
            runs.into_iter().map(|run| run.join().expect("no panic")).collect()
        });
        assert!(statuses.iter().all(|status| *status == 0 || *status == 75 && round < 3), "{statuses:?}");
        let accepted = statuses.iter().filter(|status| **status == 0).count();
        let all = (0..accepted).fold(Vec::new(), |file, _| appended(&file, &small_batch(), &[], 9).expect("accepted"));
        assert!(bytes_of(&place.file) == all, "{accepted} were accepted");
        assert!(!temporary(&place).exists());
    }
}

/// A dry run makes no file.
#[test]
fn a_dry_run_writes_nothing() {
    let place = missing("create-dry");
    let ran = place.append(&["--create", "--dry-run"]);
    let said = ": would append segments 0 to 1 and manifest 2; 2 entries, 4608 bytes\nnothing is written\n";
    assert!(ran.status == 0 && ran.text().ends_with(said), "{}", ran.text());
    assert!(!place.file.exists() && !temporary(&place).exists());
    put(&place.file, &sample("torn.rvf"));
    let ran = place.append(&["--dry-run", "--retire", "5", "--json", "--time", "9"]);
    assert!(ran.json().ends_with(",\"removed\":150,\"time\":9,\"dry_run\":true}"), "{}", ran.json());
    let ran = rvf(&["retire", text(&place.file), "5", "--dry-run"]);
    assert!(ran.text().contains("\nwould retire segment 5: VEC, 128 bytes, time 3000 "), "{}", ran.text());
    assert!(
        ran.text().ends_with("\n150 bytes behind the old end would be gone\nnothing is written\n"),
        "{}",
        ran.text()
    );
    assert!(bytes_of(&place.file) == sample("torn.rvf"));
    // What would be refused is refused.
    assert_eq!(rvf(&["retire", text(&place.file), "0", "--dry-run"]).status, 11);
}
