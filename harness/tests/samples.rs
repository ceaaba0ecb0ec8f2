//! The sample files: the library makes the same bytes again, and each shows what it is for.

use rvf::{Body, Dtype, Refusal};
use rvf_harness::calls::{Calls, Reference};
use std::path::{Path, PathBuf};
use std::process::Command;

const NAMES: [&str; 12] = [
    "worked.rvf",
    "clean.rvf",
    "torn.rvf",
    "damaged.rvf",
    "compacted.rvf",
    "nested.rvf",
    "restarts.rvf",
    "kinds.rvf",
    "partner.rvf",
    "flipped_padding.rvf",
    "flipped_header.rvf",
    "flipped_manifest.rvf",
];

fn root() -> PathBuf {
    Path::new(env!("CARGO_MANIFEST_DIR")).join("..")
}

fn sample(name: &str) -> Vec<u8> {
    std::fs::read(root().join("samples").join(name)).expect("the sample is in the repository")
}

#[test]
fn samples_are_what_the_library_makes() {
    let made = Path::new(env!("CARGO_TARGET_TMPDIR")).join("samples");
    std::fs::create_dir_all(&made).expect("a folder to write to");
    let ran = Command::new(env!("CARGO"))
        .args(["run", "--quiet", "--offline", "--example", "samples", "--manifest-path"])
        .arg(root().join("bindings/rust/Cargo.toml"))
        .arg("--target-dir")
        .arg(Path::new(env!("CARGO_TARGET_TMPDIR")).join("binding-samples"))
        .arg("--")
        .arg(&made)
        .output()
        .expect("cargo starts");
    assert!(ran.status.success(), "{}", String::from_utf8_lossy(&ran.stderr));
    for name in NAMES {
        assert!(std::fs::read(made.join(name)).expect("it was made") == sample(name), "{name} is made otherwise");
    }
}

/// The id, type and state of each entry, and the vector with an id as numbers.
fn directory(file: &[u8]) -> Vec<(u64, u8, bool)> {
    rvf::entries(file).expect("the file opens").iter().map(|entry| (entry.id, entry.kind, entry.retired)).collect()
}

fn position(file: &[u8], id: u64) -> Result<String, Refusal> {
    let vector = rvf::vector(file, id)?;
    Ok(vector.components().map(|component| component.to_string()).collect::<Vec<_>>().join(" "))
}

#[test]
fn clean_has_three_batches_and_a_retired_segment() {
    let file = sample("clean.rvf");
    let wanted = [(0, 1, true), (1, 5, false), (2, 1, false), (3, 7, false), (4, 5, false), (5, 1, false)];
    assert_eq!(directory(&file), wanted);
    assert_eq!(rvf::open(&file).map(|manifest| (manifest.id, manifest.end)), Ok((6, file.len() as u64)));
    assert_eq!(position(&file, 21), Ok("2.25 102.25 202.25".to_string()));
    assert_eq!(position(&file, 30), Ok("3 103 203".to_string()));
    assert_eq!(rvf::payload(&file, 0), Err(Refusal::NotLive));
    assert_eq!(rvf::payload(&file, 3), Ok(&b"second contact"[..]));
}

#[test]
fn torn_answers_as_before_the_batch_that_was_cut() {
    let (clean, torn) = (sample("clean.rvf"), sample("torn.rvf"));
    assert!(torn.len() > clean.len() && torn.starts_with(&clean));
    assert_eq!(directory(&torn), directory(&clean));
    for id in [7, 21, 30, 31] {
        assert_eq!(position(&torn, id), position(&clean, id));
    }
    assert_eq!(rvf::open(&torn).map(|manifest| manifest.end), Ok(clean.len() as u64));
}

#[test]
fn damaged_refuses_and_does_not_answer_an_older_position() {
    let (clean, damaged) = (sample("clean.rvf"), sample("damaged.rvf"));
    assert_eq!(clean.iter().zip(&damaged).filter(|(one, other)| one != other).count(), 1);
    // Every search begins with the newest segment of vectors, which is the damaged one.
    for id in [7, 21, 30] {
        assert_eq!(position(&damaged, id), Err(Refusal::ContentHash));
    }
    assert_eq!(directory(&damaged), directory(&clean));
}

/// The clean file had three batches and a retired segment; the compacted one has what is live, and
/// goes on with the same ids.
#[test]
fn compacted_has_the_live_segments_and_one_manifest() {
    let (clean, compacted) = (sample("clean.rvf"), sample("compacted.rvf"));
    assert_eq!(directory(&compacted), [(2, 1, false), (3, 7, false), (5, 1, false)]);
    assert_eq!(rvf::open(&compacted).map(|manifest| (manifest.id, manifest.end)), Ok((6, compacted.len() as u64)));
    assert_eq!((clean.len(), compacted.len()), (13_824, 4_864));
    for id in [7, 21, 30, 31] {
        assert_eq!(position(&compacted, id), position(&clean, id));
    }
    assert_eq!(rvf::payload(&compacted, 3), rvf::payload(&clean, 3));
    assert_eq!([0, 1, 4, 6].map(|id| rvf::payload(&compacted, id)), [Err(Refusal::NotLive); 4]);
    let next = [&clean, &compacted].map(|file| {
        let mut buffer = [&file[..], &[0; 9_000]].concat();
        rvf::append(&mut buffer, file.len(), &rvf::batch(&[]), &[2], 9).map(|appended| appended.id)
    });
    assert_eq!(next, [Ok(7), Ok(7)]);
}

#[test]
fn nested_answers_from_the_outer_file_alone() {
    let (clean, nested) = (sample("clean.rvf"), sample("nested.rvf"));
    assert_eq!(rvf::payload(&nested, 0), Ok(&clean[..]));
    assert_eq!(directory(&nested), [(0, 7, false)]);
    assert_eq!(position(&nested, 7), Err(Refusal::NoVector));
    // Cut anywhere before its end, the inner manifests are not taken for the file's.
    for end in [nested.len() - 1, 64 + clean.len(), 64 + clean.len() / 2] {
        assert_eq!(rvf::open(&nested[..end]).map_err(Refusal::from).err(), Some(Refusal::NoManifest));
    }
}

/// An id behind a restart is absolute; one that carries the difference on would be another.
#[test]
fn restarts_begin_anew() {
    let file = sample("restarts.rvf");
    let value = |id| position(&file, id);
    assert_eq!([100, 105, 108, 120, 200].map(value), ["1", "2", "3", "4", "5"].map(|value| Ok(value.to_string())));
    assert_eq!([213, 225, 425].map(value), [Err(Refusal::NoVector), Err(Refusal::NoVector), Err(Refusal::NoVector)]);
}

/// One of each dtype; the program that prints them runs on this file.
#[test]
fn kinds_has_a_note_and_a_vector_of_each_dtype() {
    let file = sample("kinds.rvf");
    assert_eq!(directory(&file), [(0, 7, false), (1, 1, false), (2, 1, false), (3, 1, false)]);
    assert_eq!(rvf::payload(&file, 0), Ok(&b"one of each kind\n"[..]));
    let wanted = ["2.5 0", "-0.75 1000000000", "-7 127", "200 0"].map(|value| Ok(value.to_string()));
    assert_eq!([1, 2, 3, 4].map(|id| position(&file, id)), wanted);
    let dtypes = [1, 2, 3, 4].map(|id| rvf::vector(&file, id).map(|vector| vector.dtype));
    assert_eq!(dtypes, [Dtype::F32, Dtype::F32, Dtype::I8, Dtype::U8].map(Ok));
    let stdin = std::fs::read(root().join("crates/show_reading/stdin")).expect("the program has a case");
    assert_eq!(stdin, file);
}

/// Types that other writers use: the index is handed out like a note, the reserved one never; the
/// manifest behind both is the file's.
#[test]
fn partner_has_a_metadata_index_and_a_reserved_type() {
    let file = sample("partner.rvf");
    let entries = [(0, 1, false), (1, 0x0D, false), (2, 0x20, false), (3, 5, false), (4, 1, false)];
    assert_eq!(directory(&file), entries);
    assert_eq!(rvf::payload(&file, 1), Ok(&b"station north: 7, 21\n"[..]));
    assert_eq!(rvf::payload(&file, 2), Err(Refusal::ReservedType));
    assert_eq!(position(&file, 7), Ok("2 102 202".to_string()));
    let mut room = file.clone();
    room.resize(2 * file.len(), 0);
    let mut append = |kind, retire: &[u64]| {
        let batch = rvf::batch(&[Body { kind, flags: 0, bytes: b"index" }]);
        rvf::append(&mut room, file.len(), &batch, retire, 10_000).map(|appended| appended.count)
    };
    assert_eq!([append(0x20, &[]), append(0x0D, &[]), append(0x0D, &[2])], [Err(Refusal::Batch), Ok(7), Ok(7)]);
    assert_eq!(rvf::payload(&room, 2), Err(Refusal::NotLive));
    let compacted = rvf::compact(&file, &mut room).expect("every segment is whole");
    room.truncate(compacted.end as usize);
    let kinds: Vec<u8> = directory(&room).into_iter().map(|(_, kind, _)| kind).collect();
    assert_eq!(kinds, [1, 0x0D, 0x20, 1]);
    assert_eq!(rvf::payload(&room, 2), Err(Refusal::ReservedType));
}

/// One bit each: an earlier manifest is the file's, and what lies behind it is lost, not cut.
#[test]
fn flipped_bits_lose_batches_that_can_be_told() {
    let clean = sample("clean.rvf");
    let cases = [("flipped_padding.rvf", 1, 2), ("flipped_header.rvf", 1, 2), ("flipped_manifest.rvf", 4, 1)];
    for (name, manifest, lost) in cases {
        let file = sample(name);
        let changed: u32 = clean.iter().zip(&file).map(|(one, other)| (one ^ other).count_ones()).sum();
        assert_eq!((file.len(), changed), (clean.len(), 1), "{name}");
        assert_eq!(rvf::open(&file).map(|manifest| manifest.id), Ok(manifest), "{name}");
        let behind = rvf::lost_behind(&file).expect("within the limit").expect("batches are lost");
        assert_eq!((behind.manifests.len(), behind.newest().map(|newest| (newest.id, newest.offset))), (lost, Some((6, 9_344))));
    }
    let flipped = cases.map(|(name, ..)| name);
    for name in NAMES.into_iter().filter(|name| !flipped.contains(name)) {
        assert_eq!(rvf::lost_behind(&sample(name)), Ok(None), "{name}");
    }
}

/// The reference opens them alike.
#[test]
fn samples_agree_with_the_reference() {
    for name in NAMES {
        let file = sample(name);
        let mut out = [0; 5];
        assert_eq!(Reference.open(&file, &mut out), 0);
        assert_eq!(rvf::open(&file).map(|m| [m.offset, m.end, m.id, m.count, m.tried]), Ok(out), "{name}");
    }
}
