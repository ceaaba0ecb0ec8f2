//! The order of an append's refusals, and its bounds: every set of up to three causes
//! at once is tried, so that the earlier one of each pair must win.

use rvf_harness::calls::Reference;
use rvf_harness::ffi::Library;
use rvf_harness::gen::files::Builder;
use rvf_harness::gen::{batch_of, payloads, Rng};
use rvf_harness::reference::{limits, manifest};
use rvf_harness::runner::{self, Outcome};
use rvf_harness::vectors::start_of;

fn same_append(buffer: &mut Vec<u8>, n: u64, batch: &[u8], retire: &[u64], time: u64, what: &str) -> Outcome<3> {
    let start = start_of(buffer, n);
    let mut other = buffer.clone();
    let ours = runner::append(&Library, buffer, n, batch, retire, time, start);
    let theirs = runner::append(&Reference, &mut other, n, batch, retire, time, start);
    assert_eq!((ours.number, ours.out, ours.fault), (theirs.number, theirs.out, None), "{what}");
    assert!(*buffer == other, "{what}: the buffers differ");
    ours
}

/// The causes in the order of their refusals, with the numbers.
const CAUSES: [(&str, u32); 9] = [
    ("n above the buffer", 9),
    ("no manifest", 2),
    ("batch", 10),
    ("vec body", 7),
    ("retirement", 11),
    ("entries", 12),
    ("ids", 13),
    ("file limit", 1),
    ("room", 9),
];

/// A file with the wanted properties: near 1,024 entries, ids near the top, near the
/// limit, without a manifest.
fn file_with(full: bool, top: bool, long: bool, manifest: bool) -> Vec<u8> {
    let links = if full { 1_022 } else { 3 };
    // Two bodies and a manifest are to come: ids up to the manifest's plus 3.
    let first_id = if top { u64::MAX - links - 2 } else { 40 };
    let mut file = Builder::new(0, first_id);
    for _ in 0..links - 1 {
        file.body(7, 0, 1, &[]);
    }
    let room = limits::FILE - file.bytes.len() - 64 - 64 - manifest::payload_length(links as usize) - 4_096;
    file.body(7, 0, 1, &vec![1; if long { room } else { 10 }]);
    file.manifest(0, 1, &[]);
    if !manifest {
        // The first header is no longer sound.
        file.bytes[4] = 2;
    }
    file.bytes
}

fn vec_payload(rng: &mut Rng, broken: bool) -> Vec<u8> {
    let mut draft = payloads::draft(rng, true);
    draft.blocks = vec![payloads::block(rng, true)];
    draft.blocks[0].crc_flip = u32::from(broken);
    draft.bytes()
}

#[test]
fn the_earliest_cause_refuses() {
    let mut rng = Rng::new(601);
    for set in 0u32..1 << CAUSES.len() {
        let with = |cause: usize| set >> cause & 1 == 1;
        if set.count_ones() > 3 || (with(7) && set.count_ones() > 2) {
            continue;
        }
        let mut buffer = file_with(with(5), with(6), with(7), !with(1));
        let n = buffer.len();
        let bodies = [vec_payload(&mut rng, with(3)), rng.bytes(20)];
        let mut batch = batch_of(&[(1, 0, &bodies[0]), (7, 0x40, &bodies[1])]);
        if with(2) {
            batch[1 + 16] = 1;
        }
        // The first link may be retired; the second time in the list it may not.
        let first_id = u64::from_le_bytes(buffer[8..16].try_into().unwrap());
        let retire = if with(4) { vec![first_id, first_id] } else { vec![first_id] };
        let count = if with(5) { 1_022 } else { 3 } + 3;
        let bodies_end = n + 64 + bodies[0].len() + 64 + 64;
        let end = bodies_end + 64 + manifest::payload_length(count);
        if with(0) {
            buffer.truncate(n - 1);
        } else {
            buffer.resize(if with(8) { end - 1 } else { end }, 0x33);
        }
        let what: Vec<&str> = (0..CAUSES.len()).filter(|&cause| with(cause)).map(|cause| CAUSES[cause].0).collect();
        let outcome = same_append(&mut buffer, n as u64, &batch, &retire, 5, &what.join(", "));
        let wanted = (0..CAUSES.len()).find(|&cause| with(cause)).map_or(0, |cause| CAUSES[cause].1);
        assert_eq!(outcome.number, wanted, "{}", what.join(", "));
    }
}

/// N above the limit refuses 1 before the missing manifest, 9 where it is above the
/// buffer too; every argument is total over its type.
#[test]
fn n_at_the_limits() {
    let mut buffer = vec![0; limits::FILE + 64];
    let file = batch_of(&[]);
    let limit = limits::FILE as u64;
    let cases = [(limit, 2), (limit + 1, 1), (limit + 64, 1), (limit + 65, 9), (u64::MAX, 9), (1 << 32, 9), (1, 2), (0, 0)];
    for (n, wanted) in cases {
        let outcome = same_append(&mut buffer, n, &file, &[], 0, &format!("n {n}"));
        assert_eq!(outcome.number, wanted, "n {n}");
        buffer[..5_000].fill(0);
    }
}

/// Batches at the bounds of their length and count.
#[test]
fn batches_at_their_bounds() {
    let mut buffer = vec![0; 3 << 20];
    let longest = vec![0x42; limits::BATCH_MAX - 32];
    let mut batch = batch_of(&[(7, 0, &longest)]);
    assert_eq!(same_append(&mut buffer, 0, &batch, &[], 0, "the longest batch").number, 0);
    batch.push(0);
    assert_eq!(same_append(&mut buffer, 0, &batch, &[], 0, "a byte too long").number, 10);
    let too_long = vec![0x42; limits::BATCH_MAX - 31];
    assert_eq!(same_append(&mut buffer, 0, &batch_of(&[(7, 0, &too_long)]), &[], 0, "its body too").number, 10);
    for count in 0..=18 {
        let bodies = vec![(0xF0u8, 0x08u16, &b""[..]); count];
        let number = same_append(&mut buffer, 0, &batch_of(&bodies), &[], 0, &format!("{count} bodies")).number;
        assert_eq!(number, if count <= 16 { 0 } else { 10 }, "{count} bodies");
    }
    for length in 0..16 {
        assert_eq!(same_append(&mut buffer, 0, &vec![0; length], &[], 0, &format!("{length} bytes")).number, 10);
    }
}

/// Every byte of a batch's head and lines changed in turn; every type and flag bit.
#[test]
fn every_field_of_a_batch() {
    let valid = batch_of(&[(7, 0, b"abc"), (2, 0x48, b""), (0xF0, 0, b"defgh")]);
    for at in 0..valid.len() {
        for bit in 0..8 {
            let mut batch = valid.clone();
            batch[at] ^= 1 << bit;
            same_append(&mut vec![0; 5_000], 0, &batch, &[], 0, &format!("bit {bit} of byte {at}"));
        }
    }
    for kind in 0..=255u8 {
        same_append(&mut vec![0; 5_000], 0, &batch_of(&[(kind, 0, &[0; 64])]), &[], 0, &format!("type {kind}"));
    }
    for bit in 0..16 {
        same_append(&mut vec![0; 5_000], 0, &batch_of(&[(7, 1 << bit, b"")]), &[], 0, &format!("flag bit {bit}"));
    }
}

/// The end exactly at the limit is accepted, 64 bytes more are not; the same for the
/// buffer, the directory and the ids.
#[test]
fn the_last_that_fits() {
    let mut file = Builder::new(0, 0);
    let second = 64 + manifest::payload_length(2);
    let room = limits::FILE - 64 - 64 - manifest::payload_length(1) - second;
    file.body(7, 0, 1, &vec![9; room]);
    file.manifest(0, 1, &[]);
    let n = file.bytes.len();
    let mut buffer = file.bytes.clone();
    buffer.resize(limits::FILE + 1_000, 0);
    let one_more = same_append(&mut buffer, n as u64, &batch_of(&[(7, 0, b"")]), &[], 1, "64 bytes above the limit");
    assert_eq!(one_more.number, 1);
    let outcome = same_append(&mut buffer, n as u64, &batch_of(&[]), &[], 1, "an end at the limit");
    assert_eq!((outcome.number, outcome.out[0]), (0, limits::FILE as u64));

    for below in 0..5u64 {
        // The manifest's id is 2^64 - 1 - below; m bodies and a manifest need m + 1 more.
        let mut file = Builder::new(0, u64::MAX - below);
        file.manifest(0, 1, &[]);
        for bodies in 0..5usize {
            let mut buffer = file.bytes.clone();
            buffer.resize(20_000, 0);
            let batch = batch_of(&vec![(7u8, 0u16, &b""[..]); bodies]);
            let number = same_append(&mut buffer, 4_224, &batch, &[], 1, &format!("{bodies} bodies, {below} ids")).number;
            assert_eq!(number, if bodies as u64 + 1 > below { 13 } else { 0 }, "{bodies} bodies, {below} ids");
        }
    }
}

/// Retirement: every entry of a file with all kinds of them, alone and twice.
#[test]
fn every_retirement() {
    let mut file = Builder::new(0, 3);
    file.body(7, 0, 1, b"live");
    file.manifest(0, 1, &[]);
    file.body(1, 0, 1, &[0; 64]);
    file.manifest(0, 1, &[(rvf_harness::gen::files::Place::RootCrc(0), 1)]);
    file.body(9, 0, 1, b"retired");
    file.links[4].1 = 1;
    file.manifest(0, 1, &[]);
    let n = file.bytes.len() as u64;
    for first in 0..12 {
        for list in [vec![first], vec![first, first], vec![3, first], vec![first, 5, 3], vec![first, u64::MAX]] {
            let mut buffer = file.bytes.clone();
            buffer.resize(40_000, 0);
            let number = same_append(&mut buffer, n, &batch_of(&[(7, 0, b"")]), &list, 1, &format!("{list:?}")).number;
            let good = |id: &u64| *id == 3 || *id == 5;
            let twice = (1..list.len()).any(|at| list[..at].contains(&list[at]));
            assert_eq!(number, if list.iter().all(good) && !twice { 0 } else { 11 }, "{list:?}");
        }
    }
    let mut buffer = vec![0; 5_000];
    assert_eq!(same_append(&mut buffer, 0, &batch_of(&[(7, 0, b"")]), &[0], 1, "an empty file").number, 11);
}

/// The rules' worked ends, and a directory filled to its bound: a manifest of 1,024
/// entries takes 53,376 bytes with its header, one entry more is refused.
#[test]
fn worked_ends_and_a_full_directory() {
    let mut buffer = vec![0; 9_000];
    assert_eq!(same_append(&mut buffer, 0, &batch_of(&[]), &[], 1, "an empty batch").out, [4_224, 0, 0]);
    let mut buffer = vec![0; 9_000];
    let body = [5u8; 100];
    assert_eq!(same_append(&mut buffer, 0, &batch_of(&[(7, 0, &body)]), &[], 1, "100 bytes").out, [4_416, 1, 1]);
    assert_eq!(&buffer[192..196], &[0x52, 0x56, 0x46, 0x53], "the manifest stands at 192");
    assert_eq!(same_append(&mut buffer, 4_416, &batch_of(&[]), &[], 1, "an empty batch after it").out, [8_704, 2, 2]);

    // 15 bodies and the manifest before: 16 entries more each time.
    let mut buffer = vec![0; limits::FILE];
    let (mut n, mut count, mut before) = (0u64, 0u64, 0u64);
    let batch = batch_of(&vec![(7u8, 0u16, &b""[..]); 15]);
    while count < 1_008 {
        before = n;
        let outcome = same_append(&mut buffer, n, &batch, &[], 1, "15 bodies");
        assert_eq!(outcome.number, 0);
        (n, count) = (outcome.out[0], outcome.out[2]);
    }
    // 1,007 entries by now with the last manifest outside: one less than 1,008 at the first.
    let missing = 1_024 - count - 1;
    let fill = batch_of(&vec![(7u8, 0u16, &b""[..]); missing as usize]);
    let outcome = same_append(&mut buffer, n, &fill, &[], 1, "filled");
    assert_eq!((outcome.number, outcome.out[2]), (0, 1_024), "after {before}");
    assert_eq!(outcome.out[0] - n - 64 * missing, 53_376);
    let over = same_append(&mut buffer, outcome.out[0], &batch_of(&[]), &[], 1, "one entry more");
    assert_eq!(over.number, 12);
}

/// A list of a million ids to retire ends as soon as no live entry is left for them.
#[test]
fn a_million_ids_to_retire() {
    let mut buffer = vec![0; 70_000];
    let n = same_append(&mut buffer, 0, &batch_of(&vec![(7u8, 0u16, &b""[..]); 16]), &[], 1, "16 bodies").out[0];
    let ids: Vec<u64> = (0..1_000_000).map(|id| id % 17).collect();
    assert_eq!(same_append(&mut buffer, n, &batch_of(&[]), &ids, 1, "a million ids").number, 11);
    let all: Vec<u64> = (0..16).rev().collect();
    assert_eq!(same_append(&mut buffer, n, &batch_of(&[]), &all, 1, "all of them").number, 0);
}
