//! Compares the library with the reference on reading by id: payloads, vectors and
//! components, in files with repeated ids, retired segments and damage.

use rvf_harness::calls::{Calls, Reference};
use rvf_harness::ffi::Library;
use rvf_harness::gen::batches::{segment_ids, vector_file, vector_ids};
use rvf_harness::gen::files::{self, Builder};
use rvf_harness::gen::payloads::{block_of, Draft};
use rvf_harness::gen::Rng;
use rvf_harness::runner;
use rvf_harness::vectors::hex;

/// The number that each call answered; the test wants all of them to occur.
#[derive(Default)]
struct Seen([[usize; 16]; 3]);

fn same_payload(file: &[u8], id: u64) -> usize {
    let (ours, theirs) = (runner::payload(&Library, file, id), runner::payload(&Reference, file, id));
    assert!(ours == theirs && ours.fault.is_none(), "payload {id}:\n library   {ours:?}\n reference {theirs:?}\n of {}", hex(file));
    theirs.number as usize
}

fn same_vector(file: &[u8], id: u64, room: usize) -> usize {
    let (ours, theirs) = (runner::vector(&Library, file, id, room), runner::vector(&Reference, file, id, room));
    assert!(ours == theirs && ours.fault.is_none(), "vector {id}, room {room}:\n library   {ours:?}\n reference {theirs:?}\n of {}", hex(file));
    theirs.number as usize
}

fn same_component(file: &[u8], id: u64, index: u64) -> usize {
    let (ours, theirs) = (runner::component(&Library, file, id, index), runner::component(&Reference, file, id, index));
    assert!(ours == theirs && ours.fault.is_none(), "component {index} of {id}:\n library   {ours:?}\n reference {theirs:?}\n of {}", hex(file));
    theirs.number as usize
}

/// Some questions to a file, each to both.
fn questions(rng: &mut Rng, file: &[u8], seen: &mut Seen) {
    for id in segment_ids(rng, file, 2) {
        seen.0[0][same_payload(file, id)] += 1;
    }
    for id in vector_ids(rng, 3) {
        // The length it has, for a room that is exactly enough or one short.
        let length = runner::vector(&Reference, file, id, 4_096).written.len();
        let room = match rng.below(6) {
            0 => 0,
            1 => length.saturating_sub(1),
            2 => length + rng.range(1, 40),
            _ => length,
        };
        seen.0[1][same_vector(file, id, room)] += 1;
        let index = match rng.below(8) {
            0 => u64::MAX,
            1 => 1 << 32,
            2 => 1_024,
            _ => rng.below(7) as u64,
        };
        seen.0[2][same_component(file, id, index)] += 1;
    }
}

fn files_with_vectors(seed: u64, files: usize) {
    let mut rng = Rng::new(seed);
    let mut seen = Seen::default();
    for _ in 0..files {
        let file = vector_file(&mut rng).bytes;
        questions(&mut rng, &file, &mut seen);
    }
    let wanted: [&[usize]; 3] = [&[0, 2, 3, 4, 15], &[0, 2, 4, 5, 6, 7, 8, 9], &[0, 2, 4, 5, 6, 7, 8]];
    for (counts, wanted) in seen.0.iter().zip(wanted) {
        assert!(wanted.iter().all(|&number| counts[number] > 20), "{:?}", seen.0);
    }
}

#[test]
fn files_with_vectors_first_half() {
    files_with_vectors(401, 25_000);
}

#[test]
fn files_with_vectors_second_half() {
    files_with_vectors(402, 25_000);
}

/// Files with torn tails, damaged headers and manifests inside bodies.
#[test]
fn files_of_every_kind() {
    let mut rng = Rng::new(403);
    let mut seen = Seen::default();
    for _ in 0..8_000 {
        let file = files::file(&mut rng);
        questions(&mut rng, &file, &mut seen);
    }
    assert!(seen.0[1][0] > 200 && seen.0[1][2] > 200, "{:?}", seen.0);
}

/// Every type, live and retired, whole and damaged: the numbers come in the order 3, 15, 4. A manifest
/// is never retired, so a directory that says so is none.
#[test]
fn every_type_of_a_payload() {
    for (kind, state, bits) in (1..=255u8).flat_map(|kind| [(kind, 0, 0), (kind, 0, 1), (kind, 1, 0), (kind, 1, 1)]) {
        let mut file = Builder::new(0, 7);
        file.body(kind, 0, 1, b"body");
        file.bytes[64] ^= bits;
        file.links[0].1 = state;
        file.manifest(0, 1, &[]);
        let wanted = match (kind, state, bits) {
            (5, 1, _) => 2,
            (_, 1, _) => 3,
            (0x0E..=0xEF, ..) => 15,
            (_, _, 1) => 4,
            _ => 0,
        };
        assert_eq!(same_payload(&file.bytes, 7), wanted, "type {kind}, state {state}, damage {bits}");
    }
}

/// The file of `damage_in_order`: three segments that all hold id 5, the oldest also
/// id 1, the middle one two blocks with id 5 in both.
fn three_segments(rng: &mut Rng) -> Builder {
    let mut file = Builder::new(0, 0);
    let ids: [&[&[u64]]; 3] = [&[&[1, 5]], &[&[2, 5], &[5, 9]], &[&[3, 5, 7]]];
    for blocks in ids {
        let blocks = blocks.iter().map(|ids| block_of(rng, ids, 3, 0)).collect();
        let payload = Draft { blocks, count: None, fill: None, tail: Vec::new(), cut: None }.bytes();
        file.body(1, 0, 0, &payload);
    }
    file
}

/// Every byte of every payload damaged in turn, with the hash made right again and
/// without; every segment retired in turn; every id and room.
#[test]
fn damage_in_order() {
    let mut rng = Rng::new(404);
    let valid = three_segments(&mut rng);
    for retired in 0..8 {
        let mut states = valid.clone();
        for index in 0..3 {
            states.links[index].1 = u8::from(retired >> index & 1 == 1);
        }
        let mut whole = states.clone();
        whole.manifest(0, 0, &[]);
        for id in 0..11 {
            for room in [0, 11, 12, 13] {
                same_vector(&whole.bytes, id, room);
            }
            for index in [0, 2, 3, u64::MAX] {
                same_component(&whole.bytes, id, index);
            }
            same_payload(&whole.bytes, id);
        }
        for at in 64..valid.bytes.len() {
            let segment = valid.links.iter().rposition(|link| link.0 <= at).expect("the first begins at 0");
            let offset = valid.links[segment].0;
            if at < offset + 64 {
                continue;
            }
            let mut broken = states.clone();
            broken.bytes[at] ^= 1 << rng.below(8);
            let right_hash = rng.once_in(2);
            if right_hash {
                let end = valid.links.get(segment + 1).map_or(valid.bytes.len(), |link| link.0);
                let hash = Reference.crc32c(&broken.bytes[offset + 64..end]);
                broken.bytes[offset + 40..offset + 44].copy_from_slice(&hash.to_le_bytes());
            }
            broken.manifest(0, 0, &[]);
            for id in [1, 3, 5, 9, 6] {
                same_vector(&broken.bytes, id, 12);
                same_component(&broken.bytes, id, 1);
            }
            same_payload(&broken.bytes, segment as u64);
        }
    }
}

/// Floats keep their four bytes: both zeros, infinities, every kind of NaN.
#[test]
fn floats_keep_their_bits() {
    let patterns = [0u32, 0x8000_0000, 0x7F80_0000, 0xFF80_0000, 0x7FC0_0000, 0x7F80_0001, 0xFFFF_FFFF, 0x0000_0001, 0x7FA0_1234];
    let mut rng = Rng::new(405);
    let mut file = Builder::new(0, 0);
    let mut block = block_of(&mut rng, &[42], patterns.len(), 0);
    block.columns = patterns.iter().flat_map(|bits| bits.to_le_bytes()).collect();
    file.body(1, 0, 0, &Draft { blocks: vec![block], count: None, fill: None, tail: Vec::new(), cut: None }.bytes());
    file.manifest(0, 0, &[]);
    for (index, bits) in patterns.into_iter().enumerate() {
        let outcome = runner::component(&Library, &file.bytes, 42, index as u64);
        assert_eq!((outcome.number, outcome.out), (0, [0, bits as u64]), "component {index}");
    }
    same_vector(&file.bytes, 42, 4 * patterns.len());
}
