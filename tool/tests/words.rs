//! Words that make no command, inputs that cannot be read, and the texts of help.

mod common;

use common::{folder, program, put, rvf, sample, sample_path};
use std::fs::File;
use std::io::{BufRead, BufReader};
use std::path::Path;
use std::process::{Command, Stdio};
use std::time::{Duration, Instant};

#[test]
fn wrong_words_are_named() {
    let cases: [(&[&str], &str); 39] = [
        (&[], "name a command"),
        (&["show"], "unknown command 'show'"),
        (&["help", "show"], "unknown command 'show'"),
        (&["show", "--help"], "unknown command 'show'"),
        (&["list"], "rvf list needs a FILE"),
        (&["salvage", "a", "b", "c"], "rvf salvage has no use for 'c'"),
        (&["salvage", "a"], "rvf salvage needs a FILE and the path of a NEW one"),
        (&["check"], "rvf check needs a FILE"),
        (&["compact"], "rvf compact needs a FILE"),
        (&["compact", "a", "b"], "rvf compact has no use for 'b'"),
        (&["compact", "a", "--to"], "--to needs a value"),
        (&["compact", "a", "--to", "b", "--to", "c"], "--to is given twice"),
        (&["compact", "a", "--time", "1"], "rvf compact takes no --time"),
        (&["compact", "a", "--wait", "long"], "--wait must be a whole number"),
        (&["list", "a", "--quiet=yes"], "--quiet takes no value"),
        (&["list", "a", "-q", "--quiet"], "--quiet is given twice"),
        (&["get", "a", "1", "--dry-run"], "rvf get takes no --dry-run"),
        (&["get", "a", "1", "--component=x"], "--component must be a whole number"),
        (&["append", "a", "b", "--round"], "go with --vectors only"),
        (&["list", "a", "--create"], "rvf list takes no --create"),
        (&["list", "a", "-x"], "unknown option '-x'"),
        (&["check", "--time", "1", "a"], "rvf check takes no --time"),
        (&["--version", "more"], "rvf --version has no use for 'more'"),
        (&["get"], "rvf get needs a FILE"),
        (&["get", "a"], "rvf get needs the ID of a vector"),
        (&["get", "a", "seven"], "ID must be a whole number from 0 to 18446744073709551615, not 'seven'"),
        (&["get", "a", "18446744073709551616"], "not '18446744073709551616'"),
        (&["get", "a", "+1"], "not '+1'"),
        (&["get", "a", ""], "not ''"),
        (&["get", "a", "1", "--component"], "--component needs a value"),
        (&["get", "a", "1", "--component", "x"], "--component must be a whole number"),
        (&["get", "a", "1", "--to", "b"], "--to goes with --segment only"),
        (&["get", "a", "1", "--segment", "2"], "rvf get has no use for '1'"),
        (&["get", "a", "--segment", "2", "--component", "1"], "do not go together"),
        (&["append", "a"], "needs a BATCH, or --vectors TEXT"),
        (&["append", "a", "b", "--vectors", "c"], "'b' and --vectors do not go together"),
        (&["append", "a", "b", "--time", "1", "--time", "2"], "--time is given twice"),
        (&["append", "a", "b", "--retire", "1", "--retire", "-2"], "--retire must be a whole number"),
        (&["retire", "a"], "rvf retire needs the ID of at least one segment"),
    ];
    for (words, wanted) in cases {
        let ran = rvf(words);
        assert_eq!((ran.status, ran.text()), (64, ""), "{words:?}");
        assert!(ran.stderr.contains(wanted), "{words:?}: {}", ran.stderr);
        assert!(ran.stderr.starts_with("rvf: ") && ran.stderr.ends_with("rvf: see 'rvf help'\n"), "{}", ran.stderr);
        let json = rvf(&[&["--json"], words].concat());
        assert!(json.status == 64 && json.json().starts_with("{\"error\":\""), "{words:?}");
        assert_eq!(json.stderr, ran.stderr);
    }
    let twice = rvf(&["list", "--json", "a", "--json"]);
    assert_eq!((twice.status, twice.json()), (64, "{\"error\":\"--json is given twice\",\"status\":64}"));
}

/// `--json` is no option behind `--` or as the value of one.
#[test]
fn json_is_wished_only_by_the_option() {
    for words in [&["list", "--", "--json"][..], &["get", "a", "--segment", "--json"], &["append", "a", "--vectors", "--json", "b"]] {
        let ran = rvf(words);
        assert!(ran.status >= 64 && ran.text().is_empty(), "{words:?}: {}", ran.text());
    }
}

#[test]
fn help_and_version() {
    let all = rvf(&["help"]);
    assert_eq!(all.status, 0);
    assert_eq!(rvf(&["--help"]).text(), all.text());
    assert_eq!(rvf(&["-h"]).text(), all.text());
    assert_eq!(rvf(&["-V"]).text(), "rvf 0.1.0\n");
    for command in ["list", "check", "get", "append", "retire", "compact", "salvage"] {
        assert!(all.text().contains(&format!("  rvf {command} FILE")));
        let about = rvf(&[command, "--help"]);
        assert!(about.status == 0 && about.text().starts_with(&format!("rvf {command} FILE")));
        assert_eq!(rvf(&["help", command]).text(), about.text());
    }
    assert_eq!(rvf(&["--version"]).text(), "rvf 0.1.0\n");
    assert_eq!(rvf(&["--version", "--json"]).json(), "{\"version\":\"0.1.0\"}");
    assert!(rvf(&["help", "--json"]).json().starts_with("{\"help\":\"rvf: "));
}

/// Every command on a file that is not there, may not be used, or is no file.
#[test]
fn files_that_cannot_be_read() {
    let folder = folder("unreadable");
    let batch = folder.join("batch");
    put(&batch, &rvf::batch(&[]));
    let missing = folder.join("missing");
    let cases = [(missing.as_path(), "no such file"), (folder.as_path(), "is a directory"), (Path::new("/dev/zero"), "is a pipe or a device")];
    for (path, why) in cases {
        for words in every_command(path, &batch) {
            let ran = rvf(&words);
            assert_eq!((ran.status, ran.text()), (66, ""), "{words:?}");
            assert!(ran.stderr.starts_with(&format!("rvf: {}: {why}", path.display())), "{}", ran.stderr);
            let json = rvf(&[&words[..], &["--json"]].concat());
            assert!(json.json().ends_with(",\"status\":66}"), "{}", json.json());
        }
    }
    assert!(!missing.exists());
    // The batch or the text is the input that is missing.
    let file = sample_path("clean.rvf");
    let file = file.to_str().expect("text");
    for words in [["append", file, "/no/batch", "--json"], ["append", file, "--vectors", "/no/text"]] {
        assert_eq!(rvf(&words).status, 66);
    }
    let ran = rvf(&["append", file, folder.to_str().expect("text")]);
    assert_eq!((ran.status, ran.stderr.contains("is a directory")), (66, true));
}

fn every_command<'a>(path: &'a Path, batch: &'a Path) -> Vec<Vec<&'a str>> {
    let (path, batch) = (path.to_str().expect("text"), batch.to_str().expect("text"));
    vec![
        vec!["list", path],
        vec!["check", path],
        vec!["get", path, "1"],
        vec!["get", path, "--segment", "1"],
        vec!["append", path, batch],
        vec!["retire", path, "1"],
        vec!["compact", path],
        vec!["compact", path, "--dry-run"],
        vec!["compact", path, "--to", "/no/such/folder/new"],
    ]
}

#[test]
fn a_pipe_for_a_file_does_not_hang() {
    let folder = folder("pipe");
    let (pipe, batch) = (folder.join("pipe"), folder.join("batch"));
    put(&batch, &rvf::batch(&[]));
    assert!(Command::new("mkfifo").arg(&pipe).status().expect("mkfifo runs").success());
    for words in every_command(&pipe, &batch) {
        let mut child = program().args(&words).stderr(Stdio::null()).spawn().expect("the program starts");
        let start = Instant::now();
        let status = loop {
            if let Some(status) = child.try_wait().expect("it can be waited for") {
                break status.code();
            }
            if start.elapsed() > Duration::from_secs(10) {
                let _ = child.kill();
                panic!("{words:?} hangs");
            }
            std::thread::sleep(Duration::from_millis(2));
        };
        assert_eq!(status, Some(66), "{words:?}");
    }
}

#[test]
fn a_file_above_the_limit_is_refused_1() {
    let folder = folder("too-long");
    let (long, batch) = (folder.join("long"), folder.join("batch"));
    put(&batch, &rvf::batch(&[]));
    // Sparse: it takes no room on the disk.
    let limit = rvf::FILE_LIMIT as u64;
    File::create(&long).and_then(|file| file.set_len(limit + 1)).expect("a sparse file");
    for words in every_command(&long, &batch) {
        let ran = rvf(&words);
        assert_eq!((ran.status, ran.text()), (1, ""), "{words:?}");
        assert!(ran.stderr.contains("refused 1: the file, or the file after the append, is above 16,777,216 bytes"));
    }
    assert_eq!(std::fs::metadata(&long).map(|metadata| metadata.len()).ok(), Some(limit + 1));
    // At the limit it is read; zeros hold no manifest.
    File::create(&long).and_then(|file| file.set_len(limit)).expect("a sparse file");
    let status = |words: &[&str]| rvf(words).status;
    let statuses: Vec<i32> = every_command(&long, &batch).iter().map(|words| status(words)).collect();
    assert_eq!(statuses, [2, 65, 2, 2, 2, 2, 2, 2, 2]);
}

#[test]
fn names_that_begin_with_a_dash() {
    let folder = folder("dash");
    put(&folder.join("--json"), &sample("clean.rvf"));
    let ran = program().current_dir(&folder).args(["list", "--", "--json"]).output().expect("the program runs");
    assert!(ran.status.success() && ran.stdout.starts_with(b"id  type"));
}

#[cfg(unix)]
#[test]
fn names_that_are_no_text() {
    use std::os::unix::ffi::OsStrExt;
    let name = std::ffi::OsStr::from_bytes(b"no-such-\xFF\xFE");
    let ran = rvf(&["list".as_ref(), name, "--json".as_ref()]);
    assert_eq!(ran.status, 66);
    assert_eq!(ran.json(), "{\"error\":\"no-such-\u{FFFD}\u{FFFD}: no such file\",\"status\":66}");
    assert_eq!(rvf(&[name]).status, 64);
    assert_eq!(rvf(&["get".as_ref(), sample_path("clean.rvf").as_os_str(), name]).status, 64);
}

/// A reader that has seen enough: nothing is said, and the status stays.
#[test]
fn a_closed_output_is_no_failure() {
    let mut child = program()
        .arg("get")
        .arg(sample_path("nested.rvf"))
        .args(["--segment", "0", "--json"])
        .stdout(Stdio::piped())
        .stderr(Stdio::piped())
        .spawn()
        .expect("the program starts");
    drop(child.stdout.take());
    let mut said = String::new();
    let _ = BufReader::new(child.stderr.take().expect("a pipe")).read_line(&mut said);
    assert_eq!((child.wait().expect("it ends").code(), said.as_str()), (Some(0), ""));
}

/// An output that takes nothing more is a failure with a status of its own: the work is done.
#[cfg(target_os = "linux")]
#[test]
fn a_full_output_is_a_failure() {
    let full = File::options().write(true).open("/dev/full").expect("the device is there");
    let ran = program().arg("help").stdout(full).output().expect("the program runs");
    assert_eq!(ran.status.code(), Some(73));
    assert!(String::from_utf8_lossy(&ran.stderr).starts_with("rvf: standard output: "));
    // An append is done all the same, and a refusal stays one.
    let place = common::Place::new("full-output", &sample("clean.rvf"), &common::small_batch());
    let run = |words: &[&str]| {
        let full = File::options().write(true).open("/dev/full").expect("the device is there");
        program().args(words).stdout(full).output().expect("the program runs").status.code()
    };
    let (file, batch) = (common::text(&place.file), common::text(&place.batch));
    assert_eq!(run(&["append", file, batch, "--time", "9"]), Some(73));
    assert!(common::bytes_of(&place.file) == common::appended(&sample("clean.rvf"), &common::small_batch(), &[], 9).expect("accepted"));
    assert_eq!(run(&["get", file, "99", "--json"]), Some(8));
}
