//! Compaction at its edges: every length near 64, every buffer, damage in every byte, cut files, the
//! limits of directory and file.

mod compaction;

use compaction::{appended, must_answer_alike, same};
use rvf_harness::ffi::Library;
use rvf_harness::gen::files::Builder;
use rvf_harness::gen::stores::{store, Wish};
use rvf_harness::gen::{batch_of, Rng};
use rvf_harness::reference::limits;
use rvf_harness::vectors::start_of;

/// Every length of a payload near 64 and 128, live beside a retired one of the same length.
#[test]
fn every_length_near_64() {
    let mut rng = Rng::new(603);
    for length in 0..=130 {
        let mut file = Builder::new(0, 3);
        for kind in [7, 9, 0xF1] {
            let payload = rng.bytes(length);
            file.body(kind, 0, rng.value(), &payload);
        }
        file.links[1].1 = 1;
        file.manifest(0x0008, 5, &[]);
        let outcome = same(&file.bytes, file.bytes.len());
        let segment = 64 + length.next_multiple_of(64) as u64;
        assert_eq!((outcome.number, outcome.out), (0, [2 * segment + 64 + 128 + 4_096, 6, 2]), "{length} bytes");
        must_answer_alike(&mut rng, &file.bytes, &outcome.written);
    }
}

/// Every length of a buffer, up to one that is longer than the fresh file.
#[test]
fn every_room() {
    let mut rng = Rng::new(604);
    for _ in 0..2 {
        let (file, end) = loop {
            let file = store(&mut rng, Wish { damaged_live: false, tail: true });
            let outcome = same(&file, file.len());
            if outcome.number == 0 && outcome.out[2] > 2 {
                break (file, outcome.out[0] as usize);
            }
        };
        for room in 0..end + 70 {
            assert_eq!(same(&file, room).number, if room < end { 9 } else { 0 }, "room {room} of {end}");
        }
    }
}

/// Each bit of a live payload and of its hash refuses 4, at every room; those of a retired segment, of an older
/// manifest's payload and of the bytes behind the file's manifest change nothing.
#[test]
fn damage_in_every_byte() {
    let mut file = Builder::new(0, 0);
    let live = file.body(7, 0, 1, b"live payload");
    let retired = file.body(7, 0, 1, b"retired one");
    let older = file.manifest(0, 1, &[]);
    file.links[1].1 = 1;
    // The hashes that the manifest copies are those that stand there, so they are damaged before it is made.
    let sealed = |file: &Builder, bytes: &[u8]| {
        let mut file = Builder { bytes: bytes.to_vec(), ..file.clone() };
        file.manifest(0, 9, &[]);
        [file.bytes, vec![0x52; 100]].concat()
    };
    let wanted = same(&sealed(&file, &file.bytes), 5_000);
    assert_eq!((wanted.number, wanted.out), (0, [128 + 64 + 64 + 4_096, 3, 1]));
    let cases = [(live, 12, true), (retired, 11, false), (older, 100, false)];
    for (offset, length, matters) in cases {
        for byte in (40..56).chain(64..64 + length) {
            let mut bytes = file.bytes.clone();
            bytes[offset + byte] ^= 1 << (byte % 8);
            let damaged = sealed(&file, &bytes);
            for room in [5_000, 0] {
                let outcome = same(&damaged, room);
                let number = if matters { 4 } else if room == 0 { 9 } else { 0 };
                assert_eq!(outcome.number, number, "byte {byte} of the segment at {offset}, room {room}");
                assert!(number != 0 || outcome.written == wanted.written);
            }
        }
    }
}

/// A file cut while its last append was written: compaction answers and writes as on the file before it.
#[test]
fn cut_files_compact_as_before() {
    let mut rng = Rng::new(605);
    for _ in 0..300 {
        let mut file = store(&mut rng, Wish { damaged_live: false, tail: true });
        let before = file.clone();
        let start = start_of(&before, before.len() as u64);
        let batch = batch_of(&[(7, 0, b"a note"), (9, 8, &[5; 70])]);
        let outcome = appended(&Library, &mut file, &batch, &[], 9);
        let wanted = same(&before, before.len());
        if outcome.number != 0 || wanted.number != 0 {
            continue;
        }
        let new = file.len() - start;
        for k in [0, 1, 64, 65, new / 2, new - 4_096, new - 64, new - 1, rng.below(new)] {
            assert_eq!(same(&file[..start + k], before.len()), wanted, "cut at {k} of {new}");
        }
        assert_ne!(same(&file, file.len()).out[1], wanted.out[1]);
    }
}

/// A directory of 1,024 entries takes no append; compacted it has room again, and the id goes on.
#[test]
fn a_full_directory_has_room_again() {
    let mut file = Vec::new();
    for number in 0..512u64 {
        let outcome = appended(&Library, &mut file, &batch_of(&[(7, 0, &number.to_le_bytes())]), &[], number);
        assert_eq!(outcome.number, 0);
    }
    let batch = batch_of(&[(7, 0, b"one more")]);
    assert_eq!(appended(&Library, &mut file.clone(), &batch, &[], 1).number, 12);
    let outcome = same(&file, file.len());
    let end = 512 * 128 + 64 + (8u64 + 48 * 512).next_multiple_of(64) + 4_096;
    assert_eq!((outcome.number, outcome.out), (0, [end, 1_023, 512]));
    let mut fresh = outcome.written;
    let outcome = appended(&Library, &mut fresh, &batch, &[], 1);
    assert_eq!((outcome.number, outcome.out[1], outcome.out[2]), (0, 1_025, 514));
}

/// The file's limit: exactly at it the file is compacted, a byte above it refuses 1 whatever it holds.
#[test]
fn the_limit() {
    let mut file = Builder::new(0, 0);
    let body = Rng::new(606).bytes(limits::FILE - 3 * 64 - 128 - 4_096);
    file.body(7, 0, 1, &body);
    file.body(7, 0, 1, b"");
    file.links[1].1 = 1;
    file.manifest(0, 1, &[]);
    assert_eq!(file.bytes.len(), limits::FILE);
    let outcome = same(&file.bytes, limits::FILE);
    // The retired segment takes 64 bytes; the directory takes 64 instead of 128.
    assert_eq!((outcome.number, outcome.out), (0, [limits::FILE as u64 - 128, 2, 1]));
    file.bytes.push(0);
    assert_eq!([limits::FILE + 1, 0].map(|room| same(&file.bytes, room).number), [1, 1]);
}
