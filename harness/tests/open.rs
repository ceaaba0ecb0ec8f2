//! Compares the library with the reference on opening and the directory, and the
//! reference's search from the end with its walk from byte 0.

use rvf_harness::calls::Reference;
use rvf_harness::ffi::Library;
use rvf_harness::gen::files::{self, Builder, Place};
use rvf_harness::gen::Rng;
use rvf_harness::reference::manifest::{self, ENTRY, ROOT};
use rvf_harness::reference::{limits, segment};
use rvf_harness::runner;
use rvf_harness::vectors::hex;

/// A file as hex, or its length where it would fill the screen.
fn shown(file: &[u8]) -> String {
    if file.len() < 100_000 { hex(file) } else { format!("a file of {} bytes", file.len()) }
}

/// Compares opening and some entries; answers opening's number.
#[track_caller]
fn same(file: &[u8]) -> u32 {
    let (ours, theirs) = (runner::open(&Library, file), runner::open(&Reference, file));
    assert!(ours == theirs && ours.fault.is_none(), "open:\n library   {ours:?}\n reference {theirs:?}\n of {}", shown(file));
    assert_eq!(manifest::open(file), manifest::open_by_walk(file), "both ways of opening {}", shown(file));
    let count = if theirs.number == 0 { theirs.out[3] } else { 0 };
    for index in (0..count.min(6)).chain([count.saturating_sub(1), count, count + 1, u64::MAX, 1 << 32]) {
        let (ours, theirs) = (runner::entry(&Library, file, index), runner::entry(&Reference, file, index));
        assert!(ours == theirs && ours.fault.is_none(), "entry {index}:\n library   {ours:?}\n reference {theirs:?}\n of {}", shown(file));
    }
    theirs.number
}

#[test]
fn files_of_every_kind() {
    let mut rng = Rng::new(301);
    let mut seen = [0usize; 3];
    for _ in 0..50_000 {
        seen[same(&files::file(&mut rng)) as usize] += 1;
    }
    assert!(seen[0] > 10_000 && seen[2] > 3_000, "{seen:?}");
}

/// Three batches, then each byte of every header, record, entry, fill, padding and
/// root field changed in turn.
#[test]
fn every_field_damaged() {
    let mut rng = Rng::new(302);
    let mut file = Builder::new(0, 7);
    for batch in 0..3 {
        let payload = rng.bytes(30 + 50 * batch);
        file.body(7, 0x48, 9, &payload);
        file.manifest(0, 9, &[]);
    }
    let valid = file.bytes.clone();
    assert_eq!(same(&valid), 0);
    let mut places = Vec::new();
    for (index, &(offset, _)) in file.links.iter().enumerate() {
        let next = file.links.get(index + 1).map_or(valid.len(), |link| link.0);
        places.extend(offset..next.min(offset + 64 + 8 + 6 * ENTRY));
        places.extend(next - 70..next);
        if valid[offset + 5] == segment::MANIFEST {
            places.extend(next - ROOT..next - ROOT + 48);
        }
    }
    for at in places {
        for bits in [1, 0x20, 0xFF] {
            let mut broken = valid.clone();
            broken[at] ^= bits;
            same(&broken);
        }
    }
}

/// The same fields changed before the checksums are made: only the rule itself is
/// left to notice.
#[test]
fn every_field_wrong_under_right_checksums() {
    let mut rng = Rng::new(303);
    let mut file = Builder::new(0, 0);
    file.body(1, 0, 1, &[0; 64]);
    file.manifest(0, 1, &[]);
    let payload = rng.bytes(10);
    file.body(9, 0x40, 1, &payload);
    let mut places: Vec<Place> = (0..8).map(Place::Record).collect();
    places.extend((0..3).flat_map(|index| (0..ENTRY).map(move |byte| Place::Entry(index, byte))));
    places.extend((0..64).map(Place::Fill));
    places.extend((0..ROOT - 4).step_by(3).chain(0..64).map(Place::Root));
    places.extend((0..4).map(Place::RootCrc));
    places.extend((0..16).map(Place::Hash));
    for place in places {
        for bits in [1, 2, 4, 0x80, 0xFF] {
            let mut broken = file.clone();
            broken.manifest(0, 1, &[(place, bits)]);
            same(&broken.bytes);
            // With a right manifest behind it, which has the broken one as an entry.
            broken.manifest(0, 1, &[]);
            same(&broken.bytes);
        }
    }
}

/// Every type, every flag bit and some timestamps in a header that a right manifest
/// copies: the chain stops at those that are not allowed.
#[test]
fn every_type_and_flag() {
    let with = |kind: u8, flags: u16, manifest_flags: u16, time: u64| {
        let mut file = Builder::new(0, 0);
        file.manifest(0, 0, &[]);
        file.body(kind, flags, time, b"body");
        file.manifest(manifest_flags, time, &[]);
        assert_eq!(same(&file.bytes), 0, "the first manifest opens");
        runner::open(&Library, &file.bytes).out[3]
    };
    for kind in 0..=255u8 {
        assert_eq!(with(kind, 0, 0, 1), if kind > 0 { 2 } else { 0 }, "type {kind}");
    }
    for bit in 0..16 {
        let allowed = 0x03C8 >> bit & 1 == 1;
        assert_eq!(with(7, 1 << bit, 0, u64::MAX), if allowed { 2 } else { 0 }, "flag bit {bit}");
        assert_eq!(with(7, 0x03C8, 1 << bit, 1 << 63), if allowed { 2 } else { 0 }, "the manifest's flag bit {bit}");
    }
}

/// A file cut at every length, as it is and with a tail of noise.
#[test]
fn torn_everywhere() {
    let mut rng = Rng::new(304);
    let mut file = Builder::new(0, 3);
    let payload = rng.bytes(100);
    file.body(7, 0, 2, &payload);
    file.manifest(0, 2, &[]);
    file.body(0xF1, 0x200, 2, &payload[..64]);
    file.manifest(0x8, 2, &[]);
    for length in 0..=file.bytes.len() {
        same(&file.bytes[..length]);
    }
    for extra in 0..200 {
        let mut longer = file.bytes.clone();
        longer.extend(rng.bytes(extra));
        assert_eq!(same(&longer), 0);
        longer[file.bytes.len()..].fill(0);
        assert_eq!(same(&longer), 0);
    }
}

/// A file of `count` empty links, then a manifest of them all.
fn many(count: usize, first_id: u64) -> Builder {
    let mut file = Builder::new(0, first_id);
    for _ in 0..count {
        file.body(7, 0, 1, &[]);
    }
    file.manifest(0, 1, &[]);
    file
}

#[test]
fn directories_at_their_bound() {
    for count in [0, 1, 2, 1_000, 1_022, 1_023, 1_024, 1_025, 1_026, 1_100] {
        let file = many(count, 5);
        assert_eq!(same(&file.bytes), if count <= 1_024 { 0 } else { 2 }, "{count} entries");
        // Another manifest behind it: 1,024 with the first one is still the bound.
        let mut more = file.clone();
        more.manifest(0, 1, &[]);
        same(&more.bytes);
        // Links behind it that no manifest has.
        let mut more = file.clone();
        for _ in 0..40 {
            more.body(7, 0, 1, b"behind");
        }
        assert_eq!(same(&more.bytes), if count <= 1_024 { 0 } else { 2 }, "{count} entries");
    }
}

#[test]
fn ids_at_the_top() {
    for below in 0..6 {
        let file = many(3, u64::MAX - below);
        assert_eq!(same(&file.bytes), if below >= 3 { 0 } else { 2 }, "first id 2^64 - 1 - {below}");
    }
}

/// Bodies full of manifests that look right from near: headers whose roots name their
/// own place. None is a link, so none may be taken.
#[test]
fn candidates_at_every_boundary() {
    for (count, formed) in [0, 1, 2, 3, 60, 1_024].into_iter().flat_map(|count| [(count, false), (count, true)]) {
        let boundaries = 3_000;
        let mut file = Builder::new(0, 0);
        file.manifest(0, 1, &[]);
        let body = files::candidates(file.bytes.len() + 64, boundaries, count, formed);
        file.body(7, 0, 1, &body);
        assert_eq!(same(&file.bytes), 0, "candidates of {count} entries behind the manifest");
        file.manifest(0, 1, &[]);
        assert_eq!(same(&file.bytes), 0, "candidates of {count} entries before the manifest");
        // Candidates alone, and as a torn tail.
        same(&files::candidates(0, boundaries, count, formed));
        let mut torn = file.bytes.clone();
        torn.extend(files::candidates(torn.len(), boundaries, count, formed));
        assert_eq!(same(&torn), 0, "candidates of {count} entries as a tail");
    }
}

/// The longest file and one byte more, with a manifest near its front and at its end.
#[test]
fn files_at_the_limit() {
    let mut file = Builder::new(0, 0);
    file.manifest(0, 1, &[]);
    let mut bytes = file.bytes.clone();
    bytes.resize(limits::FILE, 0);
    assert_eq!(same(&bytes), 0);
    bytes.push(0);
    assert_eq!(same(&bytes), 1);
    let rest = limits::FILE - file.bytes.len() - 64 - manifest::payload_length(2) - 64;
    file.body(7, 0, 1, &vec![0xA5; rest]);
    file.manifest(0, 1, &[]);
    assert_eq!(file.bytes.len(), limits::FILE);
    assert_eq!(same(&file.bytes), 0);
    file.bytes.push(0x52);
    assert_eq!(same(&file.bytes), 1);
}
