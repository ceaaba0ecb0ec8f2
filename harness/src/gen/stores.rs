//! Stores for compaction: several manifests, some of them unconfirmed, segments of type 0x05
//! that are none, retired and damaged segments, ids with gaps, payloads of all lengths near 64,
//! and what may stand behind the last manifest.

use super::files::{self, Builder};
use super::{payloads, Rng};
use crate::reference::segment::{HEADER, MANIFEST, VEC};

/// What a store is to have beside live segments that are whole.
#[derive(Clone, Copy, Debug)]
pub struct Wish {
    /// Damage in a live segment now and then; else in retired ones and in manifests alone.
    pub damaged_live: bool,
    /// Something behind the last manifest.
    pub tail: bool,
}

fn time(rng: &mut Rng) -> u64 {
    rng.pick(&[0, 1, 5, u64::MAX, u64::MAX - 1, 1 << 63]).wrapping_add(if rng.once_in(2) { rng.value() } else { 0 })
}

/// Vectors with ids that repeat, or noise of a length near a multiple of 64.
fn payload(rng: &mut Rng, kind: u8) -> Vec<u8> {
    if kind == VEC && !rng.once_in(4) {
        let mut draft = payloads::draft(rng, true);
        draft.blocks.truncate(3);
        if rng.once_in(6) {
            payloads::spoil(rng, &mut draft);
        }
        return draft.bytes();
    }
    let near = rng.pick(&[0, 64, 128]) + rng.below(5);
    let length = if rng.once_in(3) { rng.below(200) } else { near.saturating_sub(2) };
    rng.bytes(length)
}

/// A bit flipped in a link's payload, or in its hash where it has none.
fn damage(rng: &mut Rng, file: &mut Builder, link: usize) {
    let at = file.links[link].0;
    let length = u64::from_le_bytes(file.bytes[at + 16..at + 24].try_into().unwrap()) as usize;
    let byte = if length == 0 || rng.once_in(3) { 40 + rng.below(16) } else { HEADER + rng.below(length) };
    file.bytes[at + byte] ^= 1 << rng.below(8);
}

/// A store that opens by its last manifest, unless its ids have passed the last one.
pub fn store(rng: &mut Rng, wish: Wish) -> Vec<u8> {
    let first = files::first_id(rng);
    let mut file = Builder::new(0, first);
    for _ in 0..rng.below(4) {
        for _ in 0..rng.below(4) {
            let kind = if rng.once_in(9) { MANIFEST } else { files::kind(rng) };
            let (flags, time, payload) = (files::flags(rng), time(rng), payload(rng, kind));
            file.body(kind, flags, time, &payload);
            let link = file.links.len() - 1;
            if kind == MANIFEST && rng.once_in(2) || wish.damaged_live && rng.once_in(12) {
                damage(rng, &mut file, link);
            }
            if rng.once_in(6) {
                file.next_id = file.next_id.wrapping_add(rng.pick(&[1, 2, 9, 1 << 40]));
            }
        }
        for _ in 0..rng.below(3) {
            file.retire(rng);
        }
        let faults: Vec<files::Fault> = (0..usize::from(rng.once_in(3))).map(|_| files::fault(rng)).collect();
        let (flags, time) = (if rng.once_in(2) { files::flags(rng) } else { 0 }, time(rng));
        file.manifest(flags, time, &faults);
    }
    // Retired ones may be damaged, whatever is wished of the live ones; the hash as it stands is copied.
    for link in 0..file.links.len() {
        if file.links[link].1 == 1 && rng.once_in(2) {
            damage(rng, &mut file, link);
        }
    }
    let (flags, time) = (if rng.once_in(2) { files::flags(rng) } else { 0 }, time(rng));
    file.manifest(flags, time, &[]);
    let tail = if wish.tail { files::tail(rng, &mut file) } else { Vec::new() };
    [file.bytes, tail].concat()
}

#[cfg(test)]
mod tests {
    use super::*;
    use crate::reference::{compact::compact, manifest, segment};

    /// The generator must reach what the comparisons are about.
    #[test]
    fn stores_of_every_kind_occur() {
        let mut rng = Rng::new(21);
        let (mut numbers, mut shapes) = ([0usize; 10], [0usize; 6]);
        for round in 0..3_000 {
            let bytes = store(&mut rng, Wish { damaged_live: round % 2 == 0, tail: round % 3 == 0 });
            numbers[compact(&bytes, &mut vec![0; bytes.len()]).err().unwrap_or(0) as usize] += 1;
            let Ok(opened) = manifest::open(&bytes) else {
                continue;
            };
            let entries = manifest::directory(&bytes, &opened).chunks_exact(manifest::ENTRY).map(manifest::Entry::read);
            let entries: Vec<manifest::Entry> = entries.collect();
            let whole = |entry: &manifest::Entry| segment::hash_equal(&entry.hash, entry.payload(&bytes));
            shapes[0] += usize::from(entries.iter().any(|entry| entry.state == 1));
            shapes[1] += usize::from(entries.iter().any(|entry| entry.state == 1 && !whole(entry)));
            shapes[2] += usize::from(entries.iter().any(|entry| entry.kind == MANIFEST && !whole(entry)));
            shapes[3] += usize::from(entries.iter().filter(|entry| entry.kind == MANIFEST).count() > 2);
            shapes[4] += usize::from(entries.is_empty());
            shapes[5] += usize::from(opened.end < bytes.len());
        }
        assert!([0, 2, 4].iter().all(|&number| numbers[number] > 50), "{numbers:?}");
        assert!(shapes.iter().all(|&count| count > 100), "{shapes:?}");
    }
}
