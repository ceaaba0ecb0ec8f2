//! Compares the library with the reference on lists of appends: every call byte for
//! byte, the model after each list, and reading on files that were cut while the last
//! accepted append was written.

use rvf_harness::calls::{Calls, Reference};
use rvf_harness::ffi::Library;
use rvf_harness::gen::batches::{batch, retirement, segment_ids, vector_file, vector_ids};
use rvf_harness::gen::{batch_of, files, Rng};
use rvf_harness::model::Model;
use rvf_harness::runner::{self, Outcome};
use rvf_harness::vectors::{hex, start_of};

/// Appends with both to copies of `buffer`, compares outcomes and whole buffers, and
/// leaves the new bytes in `buffer`.
fn same_append(buffer: &mut Vec<u8>, n: u64, batch: &[u8], retire: &[u64], time: u64) -> Outcome<3> {
    let start = start_of(buffer, n);
    let before = buffer.clone();
    let mut other = buffer.clone();
    let ours = runner::append(&Library, buffer, n, batch, retire, time, start);
    let theirs = runner::append(&Reference, &mut other, n, batch, retire, time, start);
    if ours != theirs || ours.fault.is_some() || *buffer != other {
        let at = buffer.iter().zip(&other).position(|(a, b)| a != b);
        panic!(
            "append, n {n}, retire {retire:?}, time {time}, first other byte {at:?}:\n library   {} {:?} {:?}\n reference {} {:?} {:?}\n batch {}\n buffer {}",
            ours.number, ours.out, ours.fault, theirs.number, theirs.out, theirs.fault, hex(batch), hex(&before)
        );
    }
    ours
}

/// Everything that reading calls answer about a file, but for the boundaries tried.
#[derive(Debug, PartialEq)]
struct Answers {
    open: (u32, [u64; 4]),
    entries: Vec<Outcome<8>>,
    payloads: Vec<(Outcome<2>, Vec<u8>)>,
    vectors: Vec<Outcome<3>>,
    components: Vec<Outcome<2>>,
}

fn answers(calls: &dyn Calls, file: &[u8], segments: &[u64], vectors: &[u64], room: usize) -> Answers {
    let open = runner::open(calls, file);
    let payload = |&id: &u64| {
        let outcome = runner::payload(calls, file, id);
        let part = if outcome.number == 0 { &file[outcome.out[0] as usize..][..outcome.out[1] as usize] } else { &[] };
        (outcome.clone(), part.to_vec())
    };
    let opened = [open.out[0], open.out[1], open.out[2], open.out[3]];
    let last = if open.number == 0 { open.out[3] } else { 0 };
    Answers {
        open: (open.number, opened),
        entries: [0, last.saturating_sub(1), last].iter().map(|&index| runner::entry(calls, file, index)).collect(),
        payloads: segments.iter().map(payload).collect(),
        vectors: vectors.iter().map(|&id| runner::vector(calls, file, id, room)).collect(),
        components: vectors.iter().map(|&id| runner::component(calls, file, id, 1)).collect(),
    }
}

/// Reading answers alike on the file before the append and on the cut file, in both.
fn same_reading(rng: &mut Rng, before: &[u8], cut: &[u8], each: usize) {
    let (segments, vectors) = (segment_ids(rng, before, each), vector_ids(rng, each));
    let room = rng.pick(&[0, 8, 24, 200]);
    let of = |calls: &dyn Calls, file: &[u8]| answers(calls, file, &segments, &vectors, room);
    let (ours, theirs) = (of(&Library, cut), of(&Reference, cut));
    assert_eq!(ours, theirs, "library and reference on the cut file {}", hex(cut));
    assert_eq!(ours, of(&Library, before), "cut file {} and file before {}", hex(cut), hex(before));
    assert_eq!(theirs, of(&Reference, before), "the reference on cut file {} and file before {}", hex(cut), hex(before));
}

/// The file that a list starts with.
fn first_file(rng: &mut Rng) -> Vec<u8> {
    match rng.below(5) {
        0 | 1 => Vec::new(),
        2 => files::file(rng),
        _ => {
            let mut file = vector_file(rng);
            let tail = files::tail(rng, &mut file);
            [file.bytes, tail].concat()
        }
    }
}

/// The room for a call: what it needs, one short, less than the file, or more.
fn room(rng: &mut Rng, n: usize, end: usize) -> usize {
    match rng.below(12) {
        0 => end.saturating_sub(1),
        1 => n,
        2 => n.saturating_sub(rng.range(1, 70)),
        3 => rng.range(n.min(end), n.max(end)),
        4..=6 => end + rng.range(1, 200),
        _ => end,
    }
}

fn lists(seed: u64, count: usize) {
    let mut rng = Rng::new(seed);
    let mut seen = [0usize; 15];
    for _ in 0..count {
        let mut file = first_file(&mut rng);
        let mut model = Model::of(&file);
        let mut last: Option<(Vec<u8>, usize, [u64; 3])> = None;
        for _ in 0..rng.range(1, 4) {
            let (batch, retire) = (batch(&mut rng).bytes, retirement(&mut rng, &file));
            let time = rng.value();
            // A first try by the reference alone tells how much room the call needs.
            let mut wide = file.clone();
            wide.resize(file.len() + batch.len() + 80_000, 0);
            let start = start_of(&wide, file.len() as u64);
            let wanted = runner::append(&Reference, &mut wide, file.len() as u64, &batch, &retire, time, start);
            let end = if wanted.number == 0 { wanted.out[0] as usize } else { file.len() + 5_000 };
            let room = room(&mut rng, file.len(), end);
            let mut buffer = file.clone();
            buffer.truncate(room);
            let noise = rng.bytes(room - buffer.len());
            buffer.extend(noise);
            let outcome = same_append(&mut buffer, file.len() as u64, &batch, &retire, time);
            seen[outcome.number as usize] += 1;
            if outcome.number == 0 {
                buffer.truncate(outcome.out[0] as usize);
                model.as_mut().expect("only a file with a model takes an append").accepted(&batch, &retire);
                last = Some((std::mem::replace(&mut file, buffer), start, outcome.out));
            }
        }
        if let Some(model) = &model {
            assert!(model.fits(&file), "the model differs: {model:?}\n file {}", hex(&file));
            if let Some(opened) = model.opened(file.len()) {
                let ours = runner::open(&Library, &file);
                let wanted = [opened.offset as u64, opened.end as u64, opened.id, opened.count as u64, opened.tried as u64];
                assert_eq!((ours.number, ours.out), (0, wanted), "opening after the list, file {}", hex(&file));
            }
        }
        let Some((before, start, answer)) = last else {
            continue;
        };
        assert_eq!(model.expect("an append was accepted").answer(), answer, "the last answer");
        let new = file.len() - start;
        let kinds = [0, 1, 63, 64, 65, new - 1, new - 4, new - 64, new - 4_096, new - 4_097, new / 2, rng.below(new)];
        for k in [rng.pick(&kinds), rng.pick(&kinds)] {
            let cut = &file[..start + k];
            same_reading(&mut rng, &before, cut, 2);
            if rng.once_in(3) {
                // Appending to the cut file, with room enough.
                let mut buffer = cut.to_vec();
                buffer.resize(file.len() + 6_000, 0xEE);
                let outcome = same_append(&mut buffer, cut.len() as u64, &batch_of(&[(7, 0, b"again")]), &[], 3);
                if start == 0 && k > 0 {
                    assert_eq!(outcome.number, 2, "an append to the cut first batch");
                }
            }
        }
    }
    assert!([0, 2, 5, 6, 7, 9, 10, 11].iter().all(|&number| seen[number] > 20), "{seen:?}");
}

#[test]
fn lists_first_half() {
    lists(501, 10_000);
}

#[test]
fn lists_second_half() {
    lists(502, 10_000);
}

/// One list, the last append cut at every byte: reading as before it, whatever tail
/// the file had before.
#[test]
fn cuts_at_every_byte() {
    let mut rng = Rng::new(503);
    for torn in [0, 100] {
        let mut before = loop {
            let file = vector_file(&mut rng).bytes;
            if runner::open(&Reference, &file).number == 0 {
                break file;
            }
        };
        before.extend(rng.bytes(torn));
        let payload = rng.bytes(100);
        let mut buffer = before.clone();
        buffer.resize(before.len() + 8_000, 0);
        let start = start_of(&buffer, before.len() as u64);
        let outcome = same_append(&mut buffer, before.len() as u64, &batch_of(&[(7, 0, &payload)]), &[], 9);
        assert_eq!(outcome.number, 0);
        let end = outcome.out[0] as usize;
        for k in 0..end - start {
            same_reading(&mut rng, &before, &buffer[..start + k], 1);
        }
        let after = runner::open(&Library, &buffer[..end]);
        assert_eq!((after.number, after.out[1]), (0, end as u64), "the whole append opens");
    }
}

/// The first append to an empty file, cut at every byte: no manifest, and appending
/// answers 2; from nothing at all it begins anew.
#[test]
fn cuts_of_the_first_append() {
    let mut rng = Rng::new(504);
    let mut whole = vec![0; 4_352];
    let end = same_append(&mut whole, 0, &batch_of(&[(7, 0, b"first")]), &[], 9).out[0] as usize;
    for k in 0..end {
        same_reading(&mut rng, &[], &whole[..k], 1);
        let mut buffer = whole[..k].to_vec();
        buffer.resize(end + 64, 0x77);
        let outcome = same_append(&mut buffer, k as u64, &batch_of(&[]), &[], 9);
        assert_eq!(outcome.number, if k == 0 { 0 } else { 2 }, "an append to the first {k} bytes");
    }
}

/// A new end below N: the file ends there then, and the torn bytes behind stay.
#[test]
fn a_new_end_below_n() {
    let mut file = vec![0x5A; 20_000];
    let end = same_append(&mut file, 0, &batch_of(&[]), &[], 1).out[0];
    let outcome = same_append(&mut file, 20_000, &batch_of(&[(2, 8, b"x")]), &[], 2);
    assert_eq!((outcome.number, outcome.out[0]), (0, end + 128 + 4_096 + 128 + 64));
    assert!(file[outcome.out[0] as usize..].iter().all(|&byte| byte == 0x5A), "bytes from the new end on stay");
    assert_eq!(runner::open(&Library, &file[..outcome.out[0] as usize]).number, 0);
}
