//! `rvf compact` refused or stopped: damage, lost batches, files that do not open, and what cannot be
//! replaced. Every file is left as it was.

mod common;

use common::{alone, bytes_of, compact, compacted, folder, names_beside, put, rvf, sample, text, why};

/// A live segment that is damaged refuses 4: which one, where, and what to do; done, it is compacted.
#[test]
fn damage_in_a_live_segment() {
    let place = alone("compact-damaged", &sample("damaged.rvf"));
    let file = text(&place.file);
    let to = format!("{file}-to");
    for words in [&[][..], &["--dry-run"], &["--to", &to], &["--discard-tail"]] {
        let lines = why(&compact(&place, words), &place.file, 4);
        let next = format!(
            "next: append the batch again: 'rvf append {file} BATCH --retire 5', or only retire what is bad: \
             'rvf retire {file} 5'; then compact"
        );
        assert_eq!(lines, ["segment 5 (VEC) at byte 9152: its content hash differs".to_string(), next]);
        assert!(bytes_of(&place.file) == sample("damaged.rvf"));
        assert_eq!(names_beside(&place.file), ["f.rvf"]);
    }
    // Both live bodies of vectors, and the note: the first is named, the others are counted.
    let mut worse = sample("damaged.rvf");
    worse[4_416 + 64] ^= 1;
    worse[4_608 + 64] ^= 1;
    put(&place.file, &worse);
    let lines = why(&compact(&place, &[]), &place.file, 4);
    let more = format!("2 more are damaged: 'rvf check {file}' names them");
    assert_eq!(lines[0], format!("segment 2 (VEC) at byte 4416: its content hash differs; {more}"));
    assert!(lines[1].contains(&format!("'rvf retire {file} 2 3 5'")), "{lines:?}");
    // As the message says.
    assert_eq!(rvf(&["retire", file, "2", "3", "5", "--time", "9"]).status, 0);
    let ran = compact(&place, &[]);
    let gone = ": 4 retired segments and 3 older manifests are gone\n";
    assert!(ran.status == 0 && ran.text().contains(gone), "{}", ran.text());
    assert_eq!(bytes_of(&place.file).len(), 4_224);
}

/// Damage in a retired segment or in an older manifest goes with it.
#[test]
fn damage_that_is_left_out() {
    for (index, at) in [64, 192 + 64 + 100, 4_736 + 64 + 3].into_iter().enumerate() {
        let mut file = sample("clean.rvf");
        file[at] ^= 1;
        let place = alone(&format!("compact-left-out-{index}"), &file);
        assert_eq!(compact(&place, &[]).status, 0);
        assert!(bytes_of(&place.file) == sample("compacted.rvf"));
        assert_eq!(rvf(&["check", text(&place.file)]).status, 0);
    }
}

/// Lost batches stop it, as they stop an append; told so, it saves them first.
#[test]
fn lost_batches() {
    for name in ["flipped_padding.rvf", "flipped_header.rvf", "flipped_manifest.rvf"] {
        let old = sample(name);
        let place = alone(&format!("compact-{name}"), &old);
        let (file, to) = (text(&place.file), format!("{}-to", text(&place.file)));
        for (words, would) in [
            (&[][..], "a compaction would remove what lies behind; nothing is written"),
            (&["--dry-run"], "a compaction would remove what lies behind; nothing is written"),
            (&["--to", &to], "the new file would lack what lies behind; nothing is written"),
        ] {
            let ran = compact(&place, words);
            assert_eq!((ran.status, ran.text()), (65, ""), "{}", ran.stderr);
            assert!(ran.stderr.contains(" are lost, not cut short: ") && ran.stderr.contains(would), "{}", ran.stderr);
            assert!(ran.stderr.contains(&format!("'rvf check {file}' says more")), "{}", ran.stderr);
            assert!(ran.stderr.contains("rvf: or --discard-tail, which "), "{}", ran.stderr);
            assert!(bytes_of(&place.file) == old);
            assert_eq!(names_beside(&place.file), ["f.rvf"]);
        }
        let end = rvf::open(&old).expect("an older manifest").end as usize;
        let fresh = compacted(&old).expect("accepted");
        // To a new path nothing needs saving: the file has what lies behind.
        assert_eq!(compact(&place, &["--to", &to, "--discard-tail"]).status, 0);
        assert!(bytes_of(to.as_ref()) == fresh && bytes_of(&place.file) == old);
        std::fs::remove_file(&to).expect("it is there");
        assert_eq!(compact(&place, &["--discard-tail", "--dry-run"]).status, 0);
        assert_eq!(names_beside(&place.file), ["f.rvf"]);
        let ran = compact(&place, &["--discard-tail"]);
        let said = format!("{} bytes behind the old end are gone; they are saved in {file}.tail-1\n", old.len() - end);
        assert!(ran.status == 0 && ran.text().ends_with(&said), "{}", ran.text());
        assert!(bytes_of(&place.file) == fresh && bytes_of(format!("{file}.tail-1").as_ref()) == old[end..]);
        put(&place.file, &old);
        let ran = compact(&place, &["--discard-tail", "--json"]);
        assert!(ran.json().ends_with(&format!(",\"saved\":\"{file}.tail-2\"}}")), "{}", ran.json());
    }
}

/// What is no store, or one without a manifest.
#[test]
fn files_that_do_not_open() {
    let clean = sample("clean.rvf");
    let cases: [(&str, &[u8], &str); 4] = [
        ("empty", b"", "the file is empty"),
        ("text", b"hello, world\n", "this is not an RVF file"),
        ("cut", &clean[..300], "it holds a first batch that was cut at byte 300;"),
        ("short", &clean[..3], "it holds a first batch that was cut at byte 3;"),
    ];
    for (name, bytes, what) in cases {
        let place = alone(&format!("compact-no-{name}"), bytes);
        let to = format!("{}-to", text(&place.file));
        for words in [&[][..], &["--to", &to], &["--dry-run", "--discard-tail"]] {
            let lines = why(&compact(&place, words), &place.file, 2);
            assert!(lines[0].starts_with(what) && lines[1].starts_with("next: "), "{lines:?}");
            assert!(bytes_of(&place.file) == bytes);
            assert_eq!(names_beside(&place.file), ["f.rvf"]);
        }
    }
}

/// Somebody who does not keep to the lock has changed the file: what they wrote is not replaced.
#[test]
fn a_file_that_changes_under_the_lock() {
    use rvf_tool::beside::{Beside, Unplaced};
    use std::time::Duration;
    let place = alone("compact-changed", &sample("clean.rvf"));
    let held = rvf_tool::held::Held::of(&place.file, Some(Duration::ZERO)).ok().flatten().expect("it is ours");
    assert_eq!(held.must_be_unchanged(), Ok(()));
    let more = [sample("clean.rvf"), vec![5; 70]].concat();
    put(&place.file, &more);
    assert!(held.must_be_unchanged().is_err());
    // It is looked at last before the rename.
    let Ok(mut beside) = Beside::open(&place.file, Duration::ZERO) else {
        panic!("a file can be made beside it");
    };
    let ready = || held.must_be_unchanged().map_err(std::io::Error::other);
    assert!(matches!(beside.place(&sample("compacted.rvf"), ready), Err(Unplaced::Before(_))));
    assert!(bytes_of(&place.file) == more);
    beside.remove();
    assert_eq!(names_beside(&place.file), ["f.rvf"]);
}

#[cfg(unix)]
mod unix {
    use super::*;
    use std::os::unix::fs::{chown, symlink, MetadataExt, PermissionsExt};

    /// Permissions and owner stay, and a link to the file stays a link.
    #[test]
    fn the_file_stays_what_it_is() {
        let place = alone("compact-mode", &sample("clean.rvf"));
        std::fs::set_permissions(&place.file, std::fs::Permissions::from_mode(0o640)).expect("it is ours");
        // Only the superuser can give a file away.
        let _ = chown(&place.file, Some(12_345), Some(54_321));
        let before = std::fs::metadata(&place.file).expect("it is there");
        let link = place.file.with_file_name("link");
        symlink("f.rvf", &link).expect("a link");
        assert_eq!(rvf(&["compact", text(&link)]).status, 0);
        assert!(std::fs::symlink_metadata(&link).expect("it is there").is_symlink());
        let now = std::fs::metadata(&place.file).expect("it is there");
        assert_eq!((now.mode(), now.uid(), now.gid()), (before.mode(), before.uid(), before.gid()));
        assert!(bytes_of(&place.file) == sample("compacted.rvf"));
        assert_eq!(names_beside(&place.file), ["f.rvf", "link"]);
        // One that leads nowhere.
        let nowhere = place.file.with_file_name("nowhere");
        symlink("gone", &nowhere).expect("a link");
        assert_eq!(rvf(&["compact", text(&nowhere)]).status, 66);
        assert_eq!(compact(&place, &["--to", text(&nowhere)]).status, 74);
    }

    /// Another name of the file would go on to name the old one.
    #[test]
    fn two_names() {
        let place = alone("compact-names", &sample("clean.rvf"));
        let other = place.file.with_file_name("other");
        std::fs::hard_link(&place.file, &other).expect("a second name");
        for words in [&[][..], &["--dry-run"]] {
            let ran = compact(&place, words);
            assert!(ran.status == 66 && ran.stderr.contains(": has 2 names (hard links), "), "{}", ran.stderr);
        }
        let to = place.file.with_file_name("to");
        assert_eq!(compact(&place, &["--to", text(&to)]).status, 0);
        assert!(bytes_of(&place.file) == sample("clean.rvf") && bytes_of(&other) == sample("clean.rvf"));
        assert_eq!(names_beside(&place.file), ["f.rvf", "other", "to"]);
    }

    /// What a kill has left beside is used up; a link in its place is not followed.
    #[test]
    fn what_lies_beside() {
        let place = alone("compact-beside", &sample("clean.rvf"));
        let beside = place.file.with_file_name(".f.rvf.rvf-new");
        put(&beside, &[7; 100_000]);
        assert_eq!(compact(&place, &[]).status, 0);
        assert!(bytes_of(&place.file) == sample("compacted.rvf") && !beside.exists());
        put(&place.file, &sample("clean.rvf"));
        let mine = place.file.with_file_name("mine");
        put(&mine, b"mine");
        symlink("mine", &beside).expect("a link");
        let ran = compact(&place, &[]);
        assert!(ran.status == 74 && ran.stderr.contains("is a link in the way; remove it"), "{}", ran.stderr);
        assert!(bytes_of(&mine) == b"mine" && bytes_of(&place.file) == sample("clean.rvf"));
    }

    /// No file can be made beside it: its name would be too long.
    #[test]
    fn nothing_can_be_written_beside() {
        let long = folder("compact-long").join("n".repeat(250));
        put(&long, &sample("clean.rvf"));
        let ran = rvf(&["compact", text(&long)]);
        assert!(ran.status == 74 && ran.stderr.contains("the file to be written beside it, "), "{}", ran.stderr);
        assert!(bytes_of(&long) == sample("clean.rvf"));
        assert_eq!(names_beside(&long).len(), 1);
    }

    /// A tail that cannot be saved, as on a full disk, is not removed.
    #[test]
    fn a_tail_that_cannot_be_saved_stays() {
        let old = sample("flipped_header.rvf");
        let place = alone("compact-tail", &old);
        let script = "trap '' XFSZ; ulimit -f 5; exec \"$0\" compact \"$1\" --discard-tail";
        let mut shell = std::process::Command::new("sh");
        let ran = shell.args(["-c", script, env!("CARGO_BIN_EXE_rvf"), text(&place.file)]).output().expect("it runs");
        assert_eq!(ran.status.code(), Some(74), "{}", String::from_utf8_lossy(&ran.stderr));
        assert!(bytes_of(&place.file) == old);
        assert_eq!(names_beside(&place.file), ["f.rvf"]);
    }
}
