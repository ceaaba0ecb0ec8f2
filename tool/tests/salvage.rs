//! `rvf salvage`: what is whole in a damaged file, written to a new one that opens.

mod common;

use common::stores::{batches, body, latest, position, six};
use common::{appended, bytes_of, folder, put, rvf, sample, text, Ran};
use rvf::Entry;
use rvf_tool::salvage::{salvage, Salvaged};
use std::path::{Path, PathBuf};

/// The segments of a file that are no manifests: id, type, flags, hash, state.
fn segments(file: &[u8]) -> Vec<(u64, u8, u16, [u8; 16], bool)> {
    let fields = |entry: Entry| (entry.id, entry.kind, entry.flags, entry.hash, entry.retired);
    let entries = rvf::entries(file).expect("it opens").into_iter();
    entries.filter(|entry| entry.kind != rvf::MANIFEST).map(fields).collect()
}

fn salvaged(file: &[u8]) -> Salvaged {
    salvage(Path::new("old"), file, Path::new("new"), 9).expect("something is whole")
}

/// Of a file without damage everything is kept, and the payloads are the same bytes.
#[test]
fn a_clean_file_loses_nothing() {
    for name in ["clean.rvf", "torn.rvf", "nested.rvf", "worked.rvf"] {
        let file = sample(name);
        let Salvaged { new, found, id } = salvaged(&file);
        assert_eq!(segments(&new), segments(&file), "{name}");
        assert!(found.lost.is_empty());
        let manifest = rvf::open(&new).expect("it opens");
        assert_eq!((manifest.id, manifest.end, manifest.count), (id, new.len() as u64, found.kept.len() as u64));
        assert_eq!(id, rvf::open(&file).expect("it opens").id + 1);
        for piece in found.kept.iter().filter(|piece| !piece.retired) {
            assert_eq!(rvf::payload(&new, piece.id), rvf::payload(&file, piece.id));
        }
        // Nothing is lost in it, it has room, and it takes the next append.
        assert_eq!(rvf::lost_behind(&new), Ok(None));
        assert!(new.len() <= file.len() && appended(&new, &rvf::batch(&[]), &[], 1).is_ok());
    }
}

/// Single flipped bits in six batches: every segment is kept but the one whose payload holds
/// the bit, and the newest position is there unless it is that one.
#[test]
fn a_flipped_bit_loses_one_segment_at_most() {
    let file = six().pop().expect("six");
    let whole = segments(&file);
    let entries: Vec<Entry> = rvf::entries(&file).expect("it opens");
    let manifest = rvf::open(&file).expect("it opens").id;
    let (mut tried, mut all_kept, mut states_known) = (0, 0, 0);
    for bit in (0..8 * file.len()).step_by(61) {
        let at = bit as u64 / 8;
        let mut flipped = file.clone();
        flipped[bit / 8] ^= 1 << (bit % 8);
        let Salvaged { new, found, .. } = salvaged(&flipped);
        let hit = |entry: &&Entry| (entry.offset + 64..entry.offset + 64 + entry.length).contains(&at);
        let hit = entries.iter().filter(|entry| entry.kind != rvf::MANIFEST).find(hit).map(|entry| entry.id);
        let ids: Vec<u64> = segments(&new).iter().map(|segment| segment.0).collect();
        let wanted: Vec<u64> = whole.iter().map(|segment| segment.0).filter(|id| Some(*id) != hit).collect();
        assert_eq!(ids, wanted, "byte {at}");
        assert_eq!(found.lost.iter().map(|(piece, _)| piece.id).collect::<Vec<_>>(), Vec::from_iter(hit), "byte {at}");
        let newest = whole.iter().rev().find(|segment| segment.1 == rvf::VEC).map(|segment| segment.0);
        assert_eq!(latest(&new), Some(if hit == newest { 5.0 } else { 6.0 }), "byte {at}");
        // A state is as it was, or it is said that it may not be.
        let known = segments(&new).iter().all(|segment| whole.contains(segment));
        assert!(known || found.unread == [manifest], "byte {at}: {:?}", found.unread);
        tried += 1;
        all_kept += usize::from(hit.is_none());
        states_known += usize::from(found.unread.is_empty());
    }
    // The rest hit the newest directory or its hash; a root is made anew.
    let figures = format!("{states_known} and {all_kept} of {tried}");
    assert!(tried > 6_000 && 100 * states_known > 98 * tried && states_known < tried, "{figures}");
    assert!(all_kept > 2_000, "{figures}");
}

/// Every directory is damaged: the chain alone is left, and without one nothing at all.
#[test]
fn without_a_whole_directory() {
    let mut file = batches(3);
    let manifest = rvf::open(&file).expect("it opens").offset;
    let older = rvf::entries(&file).expect("it opens").into_iter().filter(|entry| entry.kind == rvf::MANIFEST);
    for offset in older.map(|entry| entry.offset).chain([manifest]) {
        file[offset as usize + 64 + 8] ^= 1;
    }
    assert!(rvf::open(&file).is_err());
    let Salvaged { new, found, id } = salvaged(&file);
    assert_eq!((found.kept.len(), found.states, id), (3, None, 6));
    assert_eq!((found.unread.as_slice(), latest(&new)), (&[1, 3, 5][..], Some(3.0)));
    for nothing in [&b""[..], b"no file of ours", &[0; 10_000]] {
        assert!(salvage(Path::new("old"), nothing, Path::new("new"), 9).is_err());
    }
}

/// Every root is damaged: the directories are whole, and so are the states.
#[test]
fn without_a_whole_root() {
    let mut file = sample("clean.rvf");
    for end in [4_416, 9_152, 13_824] {
        file[end - 2] ^= 1;
    }
    assert!(rvf::open(&file).is_err());
    let Salvaged { new, found, .. } = salvaged(&file);
    assert_eq!(segments(&new), segments(&sample("clean.rvf")));
    assert!(found.lost.is_empty() && found.unread.is_empty());
}

/// A store that is full of manifests has room again.
#[test]
fn one_manifest_for_all_batches() {
    let full = batches(512);
    let new = salvaged(&full).new;
    assert_eq!((rvf::open(&new).map(|manifest| manifest.count), latest(&new)), (Ok(512), Some(512.0)));
    let next = position(513);
    let batch = rvf::batch(&[body(rvf::VEC, &next)]);
    assert_eq!(appended(&full, &batch, &[], 1).err(), Some(rvf::Refusal::DirectoryFull));
    assert_eq!(appended(&new, &batch, &[], 1).map(|file| latest(&file)), Ok(Some(513.0)));
    assert!(10 * new.len() < full.len(), "{} of {}", new.len(), full.len());
}

fn run(name: &str, file: &[u8], words: &[&str]) -> (PathBuf, Ran) {
    let folder = folder(name);
    let (old, new) = (folder.join("old.rvf"), folder.join("new.rvf"));
    put(&old, file);
    let ran = rvf(&[&["salvage", text(&old), text(&new)], words].concat());
    assert!(bytes_of(&old) == file, "the old file is left alone");
    (new, ran)
}

#[test]
fn the_program_says_what_became_of_each() {
    let mut file = sample("clean.rvf");
    file[4_416 + 7] ^= 0x80;
    file[4_608 + 64] ^= 1;
    let (new, ran) = run("salvage-text", &file, &[]);
    assert_eq!((ran.status, ran.stderr.as_str()), (65, ""));
    let wanted = "\
kept  segment 0 (VEC, retired) at byte 0: 128 bytes, time 1000 (1970-01-01 00:00:00 UTC)
kept  segment 2 (VEC, live) at byte 4416: 128 bytes, time 2000 (1970-01-01 00:00:00 UTC)
kept  segment 5 (VEC, live) at byte 9152: 128 bytes, time 3000 (1970-01-01 00:00:00 UTC)
LOST  segment 3 (META, live) at byte 4608: 14 bytes: its content hash differs
";
    assert!(ran.text().starts_with(wanted), "{}", ran.text());
    assert!(ran.text().contains(": 3 kept and 1 lost of 13824 bytes; 3 old manifests left out\n"), "{}", ran.text());
    assert!(ran.text().ends_with("new.rvf: written, with manifest 7; 4928 bytes\n"), "{}", ran.text());
    assert_eq!(rvf(&["check", text(&new)]).status, 0);
    assert_eq!(rvf(&["get", text(&new), "21"]).text(), "vector 21, dim 3, dtype f32\n2.25 102.25 202.25\n");
    // Nothing is written over.
    let again = rvf(&["salvage", text(&new), text(&new)]);
    assert!(again.status == 74 && again.stderr.contains("exists already"), "{}", again.stderr);
    let (_, ran) = run("salvage-json", &file, &["--json"]);
    assert!(
        ran.json().contains("\"lost\":[{\"id\":3,\"type\":7,\"name\":\"META\",\"offset\":4608,"),
        "{}",
        ran.json()
    );
    let (new, ran) = run("salvage-nothing", b"no file of ours", &[]);
    assert!(ran.status == 65 && ran.stderr.contains("nothing to save") && !new.exists(), "{}", ran.stderr);
}

/// The newest directory is damaged: what it retired is not known, and that is said.
#[test]
fn states_that_are_not_known() {
    let file = sample("flipped_manifest.rvf");
    let (new, ran) = run("salvage-states", &file, &[]);
    assert_eq!(ran.status, 65);
    let said = "\n1 of these are in no directory that is whole, and taken as live\n\
                damaged directory of manifest 6: what it retired is not known; states are of manifest 4\n";
    assert!(ran.text().contains(said), "{}", ran.text());
    assert_eq!(rvf(&["get", text(&new), "30"]).text(), "vector 30, dim 3, dtype f32\n3 103 203\n");
    // A batch that only retires has no segment behind it, and its loss is said too.
    let mut file = appended(&sample("clean.rvf"), &rvf::batch(&[]), &[5], 4_000).expect("accepted");
    let directory = rvf::open(&file).expect("it opens").offset as usize + 64 + 8 + 48 * 5 + 41;
    file[directory] ^= 1;
    let (_, ran) = run("salvage-retired", &file, &[]);
    let said = "\ndamaged directory of manifest 7: what it retired is not known; states are of manifest 6\n";
    assert!(ran.status == 65 && ran.text().contains(said), "{}", ran.text());
}
