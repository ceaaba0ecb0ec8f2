//! Every refusal says which, where, and what next.

mod common;

use common::stores::{batches, body};
use common::{appended, folder, put, rvf, sample, small_batch, text, why, Place};

/// The id and which of the four reasons.
#[test]
fn ids_that_cannot_be_retired() {
    let place = Place::new("why-11", &sample("clean.rvf"), &small_batch());
    let cases: [(&[&str], &str); 7] = [
        (&["99"], "segment 99 is not in the directory"),
        (&["2", "0"], "segment 0 is retired already"),
        (&["4"], "segment 4 is a manifest, which is never retired"),
        (&["6"], "segment 6 is the file's own manifest, which is never retired"),
        (&["2", "3", "2"], "segment 2 is listed twice"),
        (&["21"], "segment 21 is not in the directory; a vector has this id, and segments are retired, not vectors"),
        (&["5", "4", "0"], "segment 4 is a manifest, which is never retired"),
    ];
    for (ids, wanted) in cases {
        let lines = why(&rvf(&[&["retire", text(&place.file)], ids].concat()), &place.file, 11);
        let list = format!("next: 'rvf list {}' shows the segments and their states", text(&place.file));
        assert_eq!(lines, [wanted, list.as_str()], "{ids:?}");
    }
    let ran = rvf(&["retire", text(&place.file), "99", "--json"]);
    assert!(
        ran.json().contains("\"why\":\"segment 99 is not in the directory\",\"next\":\"'rvf list "),
        "{}",
        ran.json()
    );
}

/// 8 has no words on components unless one was asked for, and tells segments from vectors.
#[test]
fn vectors_that_are_not_there() {
    let place = Place::new("why-8", &sample("clean.rvf"), b"");
    let file = text(&place.file);
    let ran = rvf(&["get", file, "99"]);
    assert!(
        ran.stderr.starts_with(&format!("rvf: {file}: refused 8: there is no such vector\n"))
            && !ran.stderr.contains("component")
    );
    assert_eq!(why(&ran, &place.file, 8)[0], "no live segment of vectors holds the id 99");
    let lines = why(&rvf(&["get", file, "3"]), &place.file, 8);
    let wanted =
        "no live segment of vectors holds the id 3; segment 3 (META, 14 bytes) has it, and a segment is no vector";
    assert_eq!(lines[0], wanted);
    assert!(lines[1].contains(&format!("'rvf get {file} --segment 3' gets the segment")), "{lines:?}");
    let lines = why(&rvf(&["get", file, "7", "--component", "3"]), &place.file, 8);
    assert_eq!(lines[0], "vector 7 has 3 components, 0 to 2; 3 is none of them");
    // And the other way round.
    let lines = why(&rvf(&["get", file, "--segment", "30"]), &place.file, 3);
    assert!(
        lines[0] == "no segment has the id 30" && lines[1].contains(&format!("'rvf get {file} 30' gets the vector")),
        "{lines:?}"
    );
    assert_eq!(
        why(&rvf(&["get", file, "--segment", "0"]), &place.file, 3)[0],
        "segment 0 (VEC, 128 bytes) is retired"
    );
    let lines = why(&rvf(&["get", file, "--segment", "6"]), &place.file, 3);
    assert_eq!(lines[0], "segment 6 is the file's own manifest, which is no entry of its directory");
}

/// Damage: which segment, where; the first advice brings the present position back.
#[test]
fn damaged_segments() {
    let place = Place::new("why-4", &sample("damaged.rvf"), b"");
    let file = text(&place.file);
    for words in [&["7"][..], &["--segment", "5"]] {
        let lines = why(&rvf(&[&["get", file], words].concat()), &place.file, 4);
        assert_eq!(lines[0], "segment 5 (VEC) at byte 9152: its content hash differs");
        assert!(
            lines[1].starts_with(&format!("next: append the batch again: 'rvf append {file} BATCH --retire 5'")),
            "{lines:?}"
        );
    }
}

/// 2: four states, and removal is advised for one of them alone.
#[test]
fn files_without_a_manifest() {
    let folder = folder("why-2");
    let clean = sample("clean.rvf");
    let one = batches(1);
    let flipped = |at: usize| {
        let mut file = one.clone();
        file[at] ^= 1;
        file
    };
    let cases: [(&str, Vec<u8>, &str, &str); 10] = [
        ("empty", Vec::new(), "the file is empty", "BATCH' starts a store in it"),
        (
            "text",
            b"hello, world\n".to_vec(),
            "this is not an RVF file: it begins with 68 65 6c 6c, not 52 56 46 53",
            "name another file",
        ),
        (
            "many zeros",
            vec![0; 5_000_000],
            "this is not an RVF file: it begins with 00 00 00 00",
            "name another file",
        ),
        ("zeros", vec![0; 5_000], "this is not an RVF file: it begins with 00 00 00 00", "name another file"),
        (
            "cut",
            clean[..300].to_vec(),
            "it holds a first batch that was cut at byte 300;",
            "remove it and append the batch again",
        ),
        (
            "front",
            clean[..3].to_vec(),
            "it holds a first batch that was cut at byte 3;",
            "remove it and append the batch again",
        ),
        (
            "last",
            one[..one.len() - 1].to_vec(),
            "it holds a first batch that was cut at byte 4415;",
            "remove it and append the batch again",
        ),
        (
            "magic",
            flipped(0),
            "its first header is damaged: the chain breaks at byte 0: no magic",
            "keep it; 'rvf salvage ",
        ),
        (
            "version",
            flipped(4),
            "its first header is damaged: the chain breaks at byte 4: the version is 0, not 1",
            "keep it; 'rvf salvage ",
        ),
        (
            "root",
            flipped(4_000),
            "it is damaged: the chain breaks at byte 192: segment 1 (MANIFEST) is no confirmed",
            "keep it; 'rvf salvage ",
        ),
    ];
    for (name, bytes, what, next) in cases {
        let path = folder.join(name);
        put(&path, &bytes);
        for command in [&["list"][..], &["get", "7"]] {
            let ran = rvf(&[&[command[0], text(&path)], &command[1..]].concat());
            let lines = why(&ran, &path, 2);
            assert!(lines[0].starts_with(what), "{name}: {lines:?}");
            assert!(lines[1].starts_with("next: ") && lines[1].contains(next), "{name}: {lines:?}");
            assert_eq!(ran.stderr.contains("remove it"), next.starts_with("remove it"), "{name}: {lines:?}");
        }
        let checked = rvf(&["check", text(&path)]);
        assert!(
            checked.status == 65 && checked.text().contains(&format!("no confirmed manifest: {what}")),
            "{}",
            checked.text()
        );
        assert!(checked.text().contains("\nnext: ") && checked.text().contains(next), "{}", checked.text());
    }
}

/// 1 and 12: the length or the count, the limit, and what to do.
#[test]
fn full_stores() {
    let full = batches(512);
    let place = Place::new("why-12", &full, &small_batch());
    let lines = why(&place.append(&[]), &place.file, 12);
    assert_eq!(lines[0], "with this batch the directory would have 1026 entries, it has at most 1024");
    let back = "brings 14700416 bytes and 511 entries back";
    assert_eq!(lines[1], format!("next: compact it: 'rvf compact {}' {back}", text(&place.file)));
    // Compacted it takes the batch, with the ids that it would have got.
    assert_eq!(rvf(&["compact", text(&place.file)]).status, 0);
    let ran = place.append(&["--json"]);
    let ids = "{\"segments\":[1024,1025],\"manifest\":1026,\"entries\":515,";
    assert!(ran.status == 0 && ran.json().starts_with(ids), "{}", ran.json());
    // Bytes: a body of a million of them sixteen times.
    let large = rvf::batch(&[body(7, &[5; 1_000_000])]);
    let mut file = Vec::new();
    while let Ok(more) = appended(&file, &large, &[], 1) {
        file = more;
    }
    put(&place.file, &file);
    put(&place.batch, &large);
    let lines = why(&place.append(&[]), &place.file, 1);
    let would = file.len() + 1_000_064 + 64 + 4_096 + (8 + 48 * 33_usize).next_multiple_of(64);
    assert_eq!(lines[0], format!("with this batch the file would have {would} bytes, it has at most 16777216"));
    assert!(lines[1].starts_with("next: compact it: "), "{lines:?}");
    let long = place.file.with_file_name("long");
    std::fs::File::create(&long).and_then(|file| file.set_len(20_000_000)).expect("a sparse file");
    let lines = why(&rvf(&["list", text(&long)]), &long, 1);
    assert_eq!(lines[0], "it has 20000000 bytes, a file has at most 16777216");
}
