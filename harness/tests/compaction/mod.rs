//! What the tests of compaction share: the library beside the reference, and what §11 says of a
//! fresh file beside the old one.

// Each test program uses a part of this.
#![allow(dead_code)]

use rvf_harness::calls::{Calls, Reference};
use rvf_harness::ffi::Library;
use rvf_harness::gen::batches::vector_ids;
use rvf_harness::gen::Rng;
use rvf_harness::reference::manifest::{self, Entry, ENTRY};
use rvf_harness::reference::segment;
use rvf_harness::runner::{self, Outcome};
use rvf_harness::vectors::{hex, start_of};

/// Both with a buffer of so many bytes.
pub fn same(file: &[u8], room: usize) -> Outcome<3> {
    let (ours, theirs) = (runner::compact(&Library, file, room), runner::compact(&Reference, file, room));
    if ours != theirs || ours.fault.is_some() {
        let at = ours.written.iter().zip(&theirs.written).position(|(one, other)| one != other);
        let shown = |outcome: &Outcome<3>| format!("{} {:?} {:?}", outcome.number, outcome.out, outcome.fault);
        let (ours, theirs, file) = (shown(&ours), shown(&theirs), hex(&file[..file.len().min(40_000)]));
        panic!("room {room}, first other byte {at:?}:\n library   {ours}\n reference {theirs}\n file {file}");
    }
    ours
}

fn entries(file: &[u8]) -> Vec<Entry> {
    let opened = manifest::open(file).expect("the file opens");
    manifest::directory(file, &opened).chunks_exact(ENTRY).map(Entry::read).collect()
}

/// Length and bytes of a payload, whatever its place.
fn payload(calls: &dyn Calls, file: &[u8], id: u64) -> Result<Vec<u8>, u32> {
    let found = runner::payload(calls, file, id);
    match found.number {
        0 => Ok(file[found.out[0] as usize..][..found.out[1] as usize].to_vec()),
        number => Err(number),
    }
}

/// What §11 says of the fresh file beside the old one.
pub fn must_answer_alike(rng: &mut Rng, old: &[u8], fresh: &[u8]) {
    let before = manifest::open(old).expect("it was compacted");
    let after = manifest::open(fresh).expect("a fresh file opens");
    assert!(fresh.len() <= before.end && after.end == fresh.len() && after.id == before.id);
    let (kept, left): (Vec<Entry>, Vec<Entry>) =
        entries(old).into_iter().partition(|entry| entry.state == 0 && entry.kind != segment::MANIFEST);
    // The same entries at other places, in the same order, all live.
    let mut at = 0;
    for (entry, wanted) in entries(fresh).iter().zip(&kept) {
        assert_eq!(*entry, Entry { offset: at, ..*wanted });
        let header = |file: &[u8], entry: &Entry| file[entry.offset as usize..][..64].to_vec();
        assert_eq!(header(fresh, entry), header(old, wanted));
        at += 64 + entry.length.next_multiple_of(64);
    }
    assert_eq!((after.count, after.offset as u64), (kept.len(), at));
    for calls in [&Library as &dyn Calls, &Reference] {
        for entry in &kept {
            assert_eq!(payload(calls, fresh, entry.id), payload(calls, old, entry.id));
        }
        for id in left.iter().map(|entry| entry.id).chain([before.id]) {
            assert_eq!(payload(calls, fresh, id), Err(3));
        }
        for id in vector_ids(rng, 4) {
            let room = rng.pick(&[0, 8, 24, 4_096]);
            assert_eq!(runner::vector(calls, fresh, id, room), runner::vector(calls, old, id, room), "vector {id}");
            let index = rng.below(4) as u64;
            assert_eq!(runner::component(calls, fresh, id, index), runner::component(calls, old, id, index));
        }
    }
    // Once more: the same bytes.
    let again = same(fresh, fresh.len());
    assert!(again.number == 0 && again.written == fresh);
}

/// An append with room for it; the file is the new one where it was accepted.
pub fn appended(calls: &dyn Calls, file: &mut Vec<u8>, batch: &[u8], retire: &[u64], time: u64) -> Outcome<3> {
    let n = file.len();
    let mut buffer = file.clone();
    buffer.resize(n + batch.len() + 80_000, 0x3C);
    let start = start_of(&buffer, n as u64);
    let outcome = runner::append(calls, &mut buffer, n as u64, batch, retire, time, start);
    if outcome.number == 0 {
        buffer.truncate(outcome.out[0] as usize);
        *file = buffer;
    }
    outcome
}
