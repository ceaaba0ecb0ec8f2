//! `rvf append` and `rvf retire`: what is accepted is what the binding makes in memory, and
//! a refused append changes no byte.

mod common;

use common::{appended, bytes_of, end_of, put, rvf, rvf_with_input, sample, small_batch, text, Place};
use rvf::Body;

/// The clean sample with more behind its end than the next batch takes: a whole batch
/// but for its last byte.
fn long_behind() -> Vec<u8> {
    let big = rvf::batch(&[Body { kind: 7, flags: 0, bytes: &[7; 20_000] }]);
    let mut file = appended(&sample("clean.rvf"), &big, &[], 9).expect("accepted");
    file.truncate(file.len() - 1);
    file
}

#[test]
fn what_is_accepted_is_what_the_binding_makes() {
    for (index, file) in [sample("clean.rvf"), sample("torn.rvf"), sample("damaged.rvf"), long_behind(), Vec::new()].iter().enumerate() {
        let place = Place::new(&format!("accepted-{index}"), file, &small_batch());
        let ran = place.append(&["--time", "77"]);
        assert_eq!((ran.status, ran.stderr.as_str()), (0, ""));
        let wanted = appended(file, &small_batch(), &[], 77).expect("accepted");
        let now = bytes_of(&place.file);
        assert!(now == wanted, "file {index}");
        // Nothing lies behind the end.
        assert_eq!(end_of(&now), now.len());
        let gone = file.len() - end_of(file);
        assert_eq!(ran.text().contains(&format!("\n{gone} bytes behind the old end are gone\n")), gone > 0, "{}", ran.text());
    }
}

#[test]
fn what_is_told() {
    let place = Place::new("told", &sample("torn.rvf"), &small_batch());
    let ran = place.append(&["--retire", "5", "--time", "9", "--retire", "2", "--json"]);
    let wanted = "{\"segments\":[7,8],\"manifest\":9,\"entries\":9,\"end\":18752,\"retired\":[5,2],\"retired_segments\":[\
                  {\"id\":5,\"type\":1,\"name\":\"VEC\",\"length\":128,\"time\":3000},\
                  {\"id\":2,\"type\":1,\"name\":\"VEC\",\"length\":128,\"time\":2000}],\"removed\":150,\"time\":9}";
    assert_eq!((ran.status, ran.json()), (0, wanted));
    assert!(bytes_of(&place.file) == appended(&sample("torn.rvf"), &small_batch(), &[5, 2], 9).expect("accepted"));
    let place = Place::new("told-text", &sample("clean.rvf"), &small_batch());
    let ran = place.append(&["--retire", "5"]);
    let file = text(&place.file);
    let retired = "retired segment 5: VEC, 128 bytes, time 3000 (1970-01-01 00:00:00 UTC)\n";
    assert_eq!(ran.text(), format!("{file}: appended segments 7 to 8 and manifest 9; 9 entries, 18752 bytes\n{retired}"));
}

/// Without `--time` the segments carry the system's time.
#[test]
fn the_time_is_now() {
    let now = || std::time::SystemTime::now().duration_since(std::time::UNIX_EPOCH).expect("after 1970").as_nanos() as u64;
    let place = Place::new("now", b"", &rvf::batch(&[]));
    let (before, ran, after) = (now(), place.append(&[]), now());
    assert_eq!(ran.status, 0);
    let stamp = u64::from_le_bytes(bytes_of(&place.file)[24..32].try_into().expect("eight bytes"));
    assert!((before..=after).contains(&stamp));
}

#[test]
fn retire_is_an_append_of_an_empty_batch() {
    let place = Place::new("retire", &sample("clean.rvf"), b"");
    let ran = rvf(&["retire", text(&place.file), "2", "5", "--time", "4"]);
    assert_eq!(ran.status, 0);
    assert!(bytes_of(&place.file) == appended(&sample("clean.rvf"), &rvf::batch(&[]), &[2, 5], 4).expect("accepted"));
    let before = bytes_of(&place.file);
    for ids in [&["2"][..], &["3", "3"], &["0"], &["1"], &["99"], &["18446744073709551615"]] {
        let ran = rvf(&[&["retire", text(&place.file)], ids].concat());
        assert_eq!((ran.status, ran.text()), (11, ""), "{ids:?}");
        assert!(bytes_of(&place.file) == before);
    }
}

/// Every truncation of a batch is refused and leaves the file alone, what lies behind its
/// end included.
#[test]
fn truncated_batches_change_nothing() {
    let batch = rvf::batch(&[Body { kind: 7, flags: 0, bytes: b"notes" }, Body { kind: 1, flags: 0, bytes: &[0; 64] }]);
    let place = Place::new("truncated", &sample("torn.rvf"), b"");
    for length in 0..batch.len() {
        put(&place.batch, &batch[..length]);
        let ran = place.append(&[]);
        assert_eq!((ran.status, ran.text()), (10, ""), "{length} bytes");
        assert!(bytes_of(&place.file) == sample("torn.rvf"), "{length} bytes");
    }
    put(&place.batch, &batch);
    assert_eq!(place.append(&[]).status, 0);
}

/// A file, a batch, further words, and the number that refuses.
type Refused<'a> = (&'a [u8], &'a [u8], &'a [&'a str], i32);

#[test]
fn refused_appends_change_nothing() {
    let mut broken = small_batch();
    let at = broken.len() - b"third contact".len() - 1;
    broken[16 + 32 + 64] ^= 1;
    let mut too_long = small_batch();
    too_long.resize(rvf::BATCH_LIMIT + 1, 0);
    let no_manifest = &sample("clean.rvf")[..200];
    let cases: [Refused; 7] = [
        (&sample("torn.rvf"), &broken, &[], 7),
        (&sample("torn.rvf"), &broken[..at], &[], 10),
        (&sample("torn.rvf"), &too_long, &[], 10),
        (&sample("torn.rvf"), &small_batch(), &["--retire", "0"], 11),
        (no_manifest, &small_batch(), &[], 2),
        (b"", &small_batch(), &["--retire", "0"], 11),
        (b"", b"", &[], 10),
    ];
    for (index, (file, batch, words, number)) in cases.into_iter().enumerate() {
        let place = Place::new(&format!("refused-{index}"), file, batch);
        let ran = place.append(&[words, &["--json"]].concat());
        assert_eq!(ran.status, number, "{}", ran.stderr);
        assert!(ran.json().starts_with(&format!("{{\"refused\":{number},")));
        // A broken batch is the batch's fault.
        let blamed = text(if number == 7 || number == 10 { &place.batch } else { &place.file });
        assert!(ran.stderr.starts_with(&format!("rvf: {blamed}: refused {number}: ")), "{}", ran.stderr);
        assert!(bytes_of(&place.file) == file);
    }
}

#[test]
fn a_full_file_is_refused_1() {
    let body = vec![5; 1_000_000];
    let batch = rvf::batch(&[Body { kind: 7, flags: 0, bytes: &body }]);
    let mut file = Vec::new();
    while let Ok(more) = appended(&file, &batch, &[], 1) {
        file = more;
    }
    let place = Place::new("full", &file, &batch);
    assert_eq!(place.append(&[]).status, 1);
    assert!(bytes_of(&place.file) == file);
    // A smaller batch still goes in.
    put(&place.batch, &small_batch());
    assert_eq!(place.append(&[]).status, 0);
}

#[test]
fn a_missing_file_is_made_only_if_told_so() {
    let place = Place::new("create", b"", &small_batch());
    std::fs::remove_file(&place.file).expect("it is there");
    let ran = place.append(&[]);
    assert_eq!((ran.status, ran.stderr), (66, format!("rvf: {}: no such file; to start a new one, add --create\n", text(&place.file))));
    assert!(!place.file.exists());
    // A refused append makes no file either.
    assert_eq!(place.append(&["--create", "--retire", "1"]).status, 11);
    assert!(!place.file.exists());
    assert_eq!(place.append(&["--create", "--time", "5"]).status, 0);
    let once = appended(&[], &small_batch(), &[], 5).expect("accepted");
    assert!(bytes_of(&place.file) == once);
    // It is no error where the file is there already.
    assert_eq!(place.append(&["--create", "--time", "6"]).status, 0);
    assert!(bytes_of(&place.file) == appended(&once, &small_batch(), &[], 6).expect("accepted"));
    let nowhere = rvf(&["append", "/no/such/folder/f.rvf", text(&place.batch), "--create"]);
    assert_eq!(nowhere.status, 74, "{}", nowhere.stderr);
    // A bare name lies in the working folder.
    let folder = place.file.parent().expect("a folder");
    let here = common::program().current_dir(folder).args(["append", "new.rvf", "batch", "--create"]).output();
    assert!(here.expect("the program runs").status.success());
}

#[test]
fn a_batch_through_standard_input() {
    let place = Place::new("stdin", &sample("clean.rvf"), b"");
    let ran = rvf_with_input(&["append", text(&place.file), "-", "--time", "3"], &small_batch());
    assert_eq!(ran.status, 0);
    assert!(bytes_of(&place.file) == appended(&sample("clean.rvf"), &small_batch(), &[], 3).expect("accepted"));
    assert_eq!(rvf_with_input(&["append", text(&place.file), "-"], &[0; 15]).status, 10);
}

#[cfg(unix)]
#[test]
fn a_file_that_may_not_be_written() {
    use std::os::unix::fs::PermissionsExt;
    let place = Place::new("read-only", &sample("clean.rvf"), &small_batch());
    std::fs::set_permissions(&place.file, std::fs::Permissions::from_mode(0o444)).expect("it is ours");
    let status = place.append(&[]).status;
    // For the superuser nothing is read-only.
    assert!(status == 66 || status == 0, "{status}");
    assert!(status == 0 || bytes_of(&place.file) == sample("clean.rvf"));
}
