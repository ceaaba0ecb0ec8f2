//! What is expected of a command-line program: short options, several files, silence.

mod common;

use common::stores::batches;
use common::{bytes_of, folder, program, put, rvf, sample, sample_path, small_batch, text, Place};

#[test]
fn quiet_prints_nothing_and_keeps_the_status() {
    let place = Place::new("quiet", &sample("clean.rvf"), &small_batch());
    let file = text(&place.file);
    for words in [
        &["append", file, text(&place.batch), "-q"][..],
        &["retire", "-q", file, "5"],
        &["check", file, "--quiet"],
        &["list", file, "-q"],
    ] {
        let ran = rvf(words);
        assert_eq!((ran.status, ran.text(), ran.stderr.as_str()), (0, "", ""), "{words:?}");
    }
    put(&place.file, &sample("damaged.rvf"));
    let checked = rvf(&["check", "-q", file]);
    assert_eq!((checked.status, checked.text(), checked.stderr.as_str()), (65, "", ""));
    // What is wrong is still said.
    let refused = rvf(&["get", "-q", file, "7"]);
    assert!(
        refused.status == 4 && refused.text().is_empty() && refused.stderr.contains("refused 4"),
        "{}",
        refused.stderr
    );
    let both = rvf(&["list", file, "-q", "--json"]);
    assert!(both.status == 64 && both.stderr.contains("--json and --quiet do not go together"), "{}", both.stderr);
}

#[test]
fn values_behind_an_equals_sign() {
    let file = sample_path("clean.rvf");
    let file = text(&file);
    assert_eq!(rvf(&["get", file, "21", "--component=2"]).text(), "202.25\n");
    assert_eq!(rvf(&["get", file, "--segment=3"]).stdout, b"second contact");
    let place = Place::new("equals", &sample("clean.rvf"), &small_batch());
    let ran = place.append(&["--retire=5", "--retire=2", "--time=9", "--json"]);
    assert!(ran.status == 0 && ran.json().ends_with("\"time\":9}"), "{}", ran.json());
    // A name with an equals sign in it is a name behind the dashes, and a value.
    let odd = place.file.with_file_name("--to=x");
    put(&odd, &sample("clean.rvf"));
    let ran = program()
        .current_dir(odd.parent().expect("a folder"))
        .args(["list", "--", "--to=x"])
        .output()
        .expect("it runs");
    assert!(ran.status.success());
    let to = place.file.with_file_name("a=b");
    assert_eq!(rvf(&["get", file, "--segment=3", &format!("--to={}", text(&to))]).status, 0);
    assert_eq!(bytes_of(&to), b"second contact");
}

#[test]
fn several_files() {
    let path = |name: &str| sample_path(name).to_str().expect("text").to_string();
    let (clean, damaged, torn, missing) =
        (path("clean.rvf"), path("damaged.rvf"), path("torn.rvf"), path("missing.rvf"));
    let both = rvf(&["check", &clean, &torn]);
    let alone = [&clean, &torn].map(|file| rvf(&["check", file]).text().to_string());
    assert_eq!((both.status, both.text()), (0, alone.join("\n").as_str()));
    // The status is the first that is not 0, and those behind it are still looked at.
    let three = rvf(&["check", &clean, &damaged, &missing, &torn]);
    assert_eq!(three.status, 65);
    assert!(
        three.stderr.ends_with("missing.rvf: no such file\n") && three.text().ends_with(alone[1].as_str()),
        "{}",
        three.text()
    );
    assert_eq!(rvf(&["check", &missing, &damaged]).status, 66);
    let listed = rvf(&["list", &clean, &torn]);
    let alone = [&clean, &torn].map(|file| format!("{file}:\n{}", rvf(&["list", file]).text()));
    assert_eq!((listed.status, listed.text()), (0, alone.join("\n").as_str()));
    let json = rvf(&["list", &clean, &missing, "--json"]);
    let one = rvf(&["list", &clean, "--json"]);
    let wanted = format!(
        "[{{\"file\":\"{clean}\",\"answer\":{}}},{{\"file\":\"{missing}\",\"answer\":{{\"error\":",
        one.json()
    );
    assert!(json.status == 66 && json.json().starts_with(&wanted), "{}", json.json());
}

#[test]
fn retire_says_what_it_retires() {
    let place = Place::new("retired", &sample("clean.rvf"), b"");
    let ran = rvf(&["retire", text(&place.file), "3", "2"]);
    let wanted = "\
retired segment 3: META, 14 bytes, time 2000 (1970-01-01 00:00:00 UTC)
retired segment 2: VEC, 128 bytes, time 2000 (1970-01-01 00:00:00 UTC)
";
    assert!(ran.status == 0 && ran.text().ends_with(wanted), "{}", ran.text());
}

/// From four fifths of the entries on, an append says how much is left and what frees it.
#[test]
fn room_that_runs_out() {
    // A batch of one body brings two entries: 409 batches have 817 entries, one more 819.
    let place = Place::new("room", &batches(409), &small_batch());
    let before = rvf(&["retire", text(&place.file), "0"]);
    assert_eq!((before.status, before.stderr.as_str()), (0, ""));
    let ran = place.append(&["--json"]);
    assert!(
        ran.json().contains("\"entries\":821,") && ran.json().contains(",\"left\":{\"entries\":203,\"bytes\":"),
        "{}",
        ran.json()
    );
    let said = format!("rvf: {}: 203 of 1024 entries and ", text(&place.file));
    let frees = format!("; compact it: 'rvf compact {}' brings ", text(&place.file));
    assert!(ran.status == 0 && ran.stderr.starts_with(&said) && ran.stderr.contains(&frees), "{}", ran.stderr);
    // The check says it too, and what a compaction says that it brings back is what comes back.
    let (checked, json) = (rvf(&["check", text(&place.file)]), rvf(&["check", text(&place.file), "--json"]));
    assert!(checked.status == 0 && checked.text().contains("\nroom: 203 of 1024 entries and "), "{}", checked.text());
    let promised = ran.stderr.rsplit_once("' brings ").expect("a promise").1.strip_suffix(" back\n").expect("its end");
    assert!(checked.text().contains(&format!("' brings {promised} back\n")), "{}", checked.text());
    assert!(json.json().contains(",\"left\":{\"entries\":203,\"bytes\":"), "{}", json.json());
    let compacted = rvf(&["compact", text(&place.file)]);
    assert_eq!((compacted.status, compacted.stderr.as_str()), (0, ""));
    let back = format!("\n{promised} came back: 1 retired segment and 410 older manifests are gone\n");
    assert!(compacted.text().contains(&back), "{}", compacted.text());
    assert!(!rvf(&["check", text(&place.file)]).text().contains("room: "));
}

/// Paths in suggested commands go into a shell as they are.
#[test]
fn suggested_paths_are_quoted() {
    let folder = folder("it's my folder");
    let path = folder.join("a file.rvf");
    put(&path, &sample("damaged.rvf"));
    let checked = rvf(&["check", text(&path)]);
    let line =
        checked.text().lines().find(|line| line.contains("or only retire it: '")).expect("a suggestion").to_string();
    let command =
        line.split_once("or only retire it: '").and_then(|(_, rest)| rest.rsplit_once("'; ")).expect("a command").0;
    let command = command.replacen("rvf", "\"$0\"", 1);
    let ran = std::process::Command::new("sh")
        .args(["-c", &command, env!("CARGO_BIN_EXE_rvf")])
        .output()
        .expect("the shell runs");
    assert!(ran.status.success(), "{command}: {}", String::from_utf8_lossy(&ran.stderr));
    assert_eq!(rvf(&["check", text(&path)]).status, 0);
}
