//! `rvf check`: the reason why a chain stops, what is a fault and what is a remark, and
//! what each means for those who read.

mod common;

use common::{answers, appended, folder, put, rvf, sample, sample_path, small_vectors, Ran};
use rvf::Body;
use rvf_tool::check::{check, Checked, Weight};
use rvf_tool::walk::{walk, Stop};

/// The third segment of the clean sample, a segment of vectors, begins here.
const THIRD: usize = 4_416;

fn changed(at: usize, bits: u8) -> Vec<u8> {
    let mut file = sample("clean.rvf");
    file[at] ^= bits;
    file
}

#[test]
fn every_reason_to_stop() {
    let length = sample("clean.rvf").len();
    let cases = [
        (0, 1, Stop::Magic { found: [0x53, 0x56, 0x46, 0x53] }),
        (3, 0xFF, Stop::Magic { found: [0x52, 0x56, 0x46, 0xAC] }),
        (4, 3, Stop::Version(2)),
        (5, 1, Stop::Type(0)),
        (6, 1, Stop::Flags(1)),
        (7, 4, Stop::Flags(0x0400)),
        (8, 3, Stop::Id { id: 1, before: 1 }),
        (23, 0x80, Stop::PastEnd { end: (THIRD + 64 + 128) as u128 + (1 << 63), length }),
        (32, 1, Stop::Algorithm(1)),
        (33, 1, Stop::Reserved { field: "compression", byte: 33 }),
        (35, 1, Stop::Reserved { field: "reserved_0", byte: 34 }),
        (36, 1, Stop::Reserved { field: "reserved_1", byte: 36 }),
        (59, 1, Stop::Reserved { field: "uncompressed_len", byte: 56 }),
        (60, 1, Stop::Reserved { field: "alignment_pad", byte: 60 }),
    ];
    for (byte, bits, why) in cases {
        let walk = walk(&changed(THIRD + byte, bits));
        assert_eq!((walk.links.len(), walk.stopped, walk.why), (2, THIRD, why), "byte {byte}");
        // The field that breaks the rule begins at the changed byte or up to seven before it.
        assert!((THIRD + byte - 7..=THIRD + byte).contains(&why.byte(THIRD)), "byte {byte}: {}", why.byte(THIRD));
    }
    // The note, the fourth segment, has fourteen bytes and then padding.
    let note = THIRD + 192;
    let padded = walk(&changed(note + 64 + 14, 1));
    assert_eq!((padded.stopped, padded.why), (note, Stop::Padding { id: 3, at: note + 78 }));
    assert_eq!(padded.why.to_string(), "padding of segment 3 at byte 4686 is not zero");
    let file = sample("clean.rvf");
    let short = walk(&file[..note + 63]);
    assert_eq!((short.stopped, short.why), (note, Stop::Room { left: 63 }));
    let whole = walk(&file);
    assert_eq!((whole.stopped, whole.why), (length, Stop::FileEnd));
}

fn weights(checked: &Checked) -> (usize, usize) {
    (checked.count(Weight::Fault), checked.count(Weight::Remark))
}

fn checked(file: &[u8]) -> Checked {
    check(file).expect("the file is within the limit")
}

/// The file's own manifest is damaged: the one before it is the file's, and what is lost is a fault.
#[test]
fn a_damaged_newest_manifest_is_a_fault() {
    let checked = checked(&changed(13_824 - 2, 1));
    assert_eq!(checked.manifest.as_ref().map(|(manifest, _)| manifest.id), Some(4));
    assert_eq!(weights(&checked), (1, 0));
    let fault = &checked.findings[0];
    let wanted = "the chain breaks: segment 6 (MANIFEST) is no confirmed manifest: its content hash differs";
    assert_eq!((fault.offset, fault.what.as_str()), (9_344, wanted));
    let effect = "4672 bytes behind byte 9152 are lost, not cut short: manifest 6 at byte 9344 among them\n\
                  what manifest 4 answers may be old: get, append, retire and compact stop here";
    assert_eq!(fault.effect, effect);
}

/// An older manifest is in the directory, and nothing but its own payload depends on it.
#[test]
fn a_damaged_older_manifest_is_a_remark() {
    let file = changed(4_736 + 64 + 100, 1);
    let checked = checked(&file);
    assert_eq!(weights(&checked), (0, 1));
    let remark = &checked.findings[0];
    assert_eq!(remark.what, "segment 4 (MANIFEST) is no confirmed manifest: its content hash differs");
    assert_eq!(remark.effect, "reading its payload refuses 4; nothing else depends on it");
    assert_eq!(rvf::payload(&file, 4), Err(rvf::Refusal::ContentHash));
    assert_eq!(answers(&file).vectors(), answers(&sample("clean.rvf")).vectors());
}

/// No manifest at all: one fault, and the reason why the chain stops.
#[test]
fn without_a_manifest_there_is_one_fault() {
    let file = &sample("clean.rvf")[..300];
    let checked = checked(file);
    assert_eq!(weights(&checked), (1, 0));
    let fault = &checked.findings[0];
    assert_eq!(fault.refusal.map(|refusal| refusal.number()), Some(2));
    assert_eq!(fault.what, "no confirmed manifest: it holds a first batch that was cut at byte 300; nothing was in the store before");
    assert_eq!(fault.effect, "every reading call and every append refuses 2");
}

/// Damage in a retired segment, in an older and in a newer live one, and in a note.
#[test]
fn damage_is_a_fault_only_where_a_call_reads() {
    let retired = checked(&changed(64 + 70, 1));
    assert_eq!(weights(&retired), (0, 1));
    assert!(retired.findings[0].what.starts_with("segment 0 (VEC, retired): its content hash differs"));
    let older = checked(&changed(THIRD + 64 + 70, 1));
    assert_eq!(weights(&older), (1, 0));
    assert!(older.findings[0].effect.contains("every search for a vector that no newer segment holds refuses 4"));
    let note = checked(&changed(THIRD + 192 + 64, 1));
    assert_eq!((weights(&note), note.findings[0].effect.as_str()), ((1, 0), "reading its payload refuses 4"));
    let mut both = changed(THIRD + 64 + 70, 1);
    both[9_152 + 64 + 70] ^= 1;
    let both = checked(&both);
    assert!(both.findings[0].effect.ends_with("searches for a vector stop at segment 5; without that one they would refuse 4 here"));
    assert!(both.findings[1].effect.ends_with("every search for a vector refuses 4, since this is the newest live segment of vectors"));
}

/// A payload that breaks the check under a right hash: the append would refuse it, so
/// it goes in as another type and its type is changed in all places.
#[test]
fn broken_vectors_under_a_right_hash() {
    for (at, bits, number) in [(0, 2, 5), (14, 1, 6), (64, 1, 7)] {
        let mut payload = small_vectors(&[1, 2], 9);
        payload[at] ^= bits;
        assert_eq!(rvf::check_vectors(&payload).map_err(|refusal| refusal.number()), Err(number));
        let mut file = appended(&[], &rvf::batch(&[Body { kind: 2, flags: 0, bytes: &payload }]), &[], 1).expect("accepted");
        let manifest = rvf::open(&file).expect("it opens").offset as usize;
        file[5] = rvf::VEC;
        file[manifest + 64 + 8 + 40] = rvf::VEC;
        let length = file.len() - manifest - 64;
        let hash = rvf::crc32c(&file[manifest + 64..][..length]);
        file[manifest + 40..][..4].copy_from_slice(&hash.to_le_bytes());
        let checked = checked(&file);
        assert_eq!(checked.findings.iter().map(|f| f.refusal.map(|r| r.number())).collect::<Vec<_>>(), [Some(number)]);
        assert!(checked.findings[0].effect.starts_with(&format!("every search for a vector refuses {number}")));
        assert_eq!(rvf::vector(&file, 1).map_err(|refusal| refusal.number()), Err(number));
    }
}

fn run(path: &std::path::Path, words: &[&str]) -> Ran {
    rvf(&[&["check", path.to_str().expect("text")], words].concat())
}

#[test]
fn the_program_says_it_in_text_and_in_json() {
    let statuses = ["clean.rvf", "torn.rvf", "nested.rvf", "damaged.rvf"].map(|name| run(&sample_path(name), &[]).status);
    assert_eq!(statuses, [0, 0, 0, 65]);
    let damaged = run(&sample_path("damaged.rvf"), &[]);
    assert!(damaged.text().contains("\nFAULT  byte 9152: segment 5 (VEC, live): its content hash differs\n"));
    // First what brings the present position back, then what brings an older one.
    let next = "\n1 fault, 0 remarks\nnext: append the batch again and retire what is bad in one step: 'rvf append ";
    assert!(damaged.text().contains(next), "{}", damaged.text());
    assert!(damaged.text().ends_with(" 5'; older vectors with the same ids are answered from then on\n"), "{}", damaged.text());
    let damaged = run(&sample_path("damaged.rvf"), &["--json"]);
    assert_eq!(damaged.status, 65);
    assert!(damaged.json().contains("{\"kind\":\"fault\",\"offset\":9152,\"segment\":5,\"refused\":4,"), "{}", damaged.json());
    let torn = run(&sample_path("torn.rvf"), &["--json"]);
    assert!(torn.json().contains("\"stopped\":13824,\"why\":\"the segment there would end at byte 14080, the file has 13974 bytes\"}"));
    assert!(torn.json().ends_with("\"faults\":0,\"remarks\":1}"));
    let empty = folder("empty").join("f.rvf");
    put(&empty, b"");
    assert_eq!(run(&empty, &[]).status, 65);
    assert!(run(&empty, &[]).text().ends_with(" BATCH' starts a store in it\n"));
    assert!(run(&empty, &["--json"]).json().contains("\"what\":\"no confirmed manifest: the file is empty\""));
}

/// What the advice says is what helps.
#[test]
fn retiring_the_bad_segment_helps() {
    let path = folder("advice").join("f.rvf");
    put(&path, &sample("damaged.rvf"));
    let file = path.to_str().expect("text");
    assert_eq!(rvf(&["get", file, "7"]).status, 4);
    assert_eq!(rvf(&["retire", file, "5"]).status, 0);
    assert_eq!(run(&path, &[]).status, 0);
    assert_eq!(rvf(&["get", file, "7"]).text(), "vector 7, dim 3, dtype f32\n2 102 202\n");
}
