//! Files with many vectors, and batches and retirement lists for appending.

use super::files::{self, Builder};
use super::{batch_of, payloads, Rng};
use crate::reference::segment::{MANIFEST, VEC};
use crate::reference::manifest;

/// A file whose vector ids repeat across blocks and segments, with retired segments
/// and, half of the time, damage: in a payload's layout under a right hash, in a hash,
/// or in a payload behind its hash.
pub fn vector_file(rng: &mut Rng) -> Builder {
    let first = if rng.once_in(10) { u64::MAX - 20 } else { rng.below(4) as u64 };
    let mut file = Builder::new(0, first);
    let damaged = rng.once_in(2);
    for batch in 0..rng.range(1, 2) as u64 {
        for _ in 0..rng.range(1, 3) {
            let kind = if rng.once_in(5) { files::kind(rng) } else { VEC };
            let mut draft = payloads::draft(rng, true);
            if damaged && rng.once_in(4) {
                payloads::spoil(rng, &mut draft);
            }
            let flags = files::flags(rng);
            let bytes = draft.bytes();
            let at = file.body(kind, flags, batch, &bytes);
            if damaged && rng.once_in(6) {
                let byte = if rng.once_in(2) { 40 + rng.below(16) } else { 64 + rng.below(bytes.len().max(1)) };
                if at + byte < file.bytes.len() {
                    file.bytes[at + byte] ^= 1 << rng.below(8);
                }
            }
        }
        if rng.once_in(3) {
            file.retire(rng);
        }
        let faults: Vec<files::Fault> = (0..usize::from(rng.once_in(12))).map(|_| files::fault(rng)).collect();
        file.manifest(0, batch, &faults);
    }
    file
}

/// Vector ids that are in a file's payloads, and some that are not.
pub fn vector_ids(rng: &mut Rng, count: usize) -> Vec<u64> {
    let near = |rng: &mut Rng| if rng.once_in(12) { rng.value() } else { rng.below(50) as u64 };
    (0..count).map(|_| near(rng)).collect()
}

/// Segment ids around those of a file.
pub fn segment_ids(rng: &mut Rng, file: &[u8], count: usize) -> Vec<u64> {
    let last = manifest::open(file).map_or(3, |opened| opened.id);
    (0..count).map(|_| last.wrapping_sub(rng.below(8) as u64).wrapping_add(rng.below(2) as u64)).collect()
}

/// A batch and what is known of it.
#[derive(Clone, Debug)]
pub struct Batch {
    pub bytes: Vec<u8>,
    /// The bodies that went in, before any fault.
    pub bodies: Vec<(u8, u16, Vec<u8>)>,
}

/// A body for a batch: vectors, now and then broken; noise otherwise.
fn body(rng: &mut Rng, broken: bool) -> (u8, u16, Vec<u8>) {
    let kind = if rng.once_in(2) { VEC } else { files::body_kind(rng) };
    let flags = files::flags(rng);
    if kind != VEC {
        let length = rng.pick(&[0, 1, 5, 63, 64, 65, 130]);
        return (kind, flags, rng.bytes(length));
    }
    let mut draft = payloads::draft(rng, true);
    if draft.blocks.len() > 4 {
        draft.blocks.truncate(2);
    }
    if broken {
        payloads::spoil(rng, &mut draft);
    }
    (kind, flags, draft.bytes())
}

/// A batch: mostly right, else with a fault in its form, a broken VEC body, or both.
pub fn batch(rng: &mut Rng) -> Batch {
    let count = match rng.below(30) {
        0 => rng.range(5, 16),
        1 => 17,
        _ => rng.below(4),
    };
    let broken = rng.once_in(6);
    let bodies: Vec<(u8, u16, Vec<u8>)> = (0..count).map(|_| body(rng, broken)).collect();
    let borrowed: Vec<(u8, u16, &[u8])> = bodies.iter().map(|(kind, flags, bytes)| (*kind, *flags, &bytes[..])).collect();
    let mut bytes = batch_of(&borrowed);
    if rng.once_in(8) {
        spoil(rng, &mut bytes, count);
    }
    Batch { bytes, bodies }
}

/// One fault in a batch's form.
pub fn spoil(rng: &mut Rng, batch: &mut Vec<u8>, count: usize) {
    let line = 16 + 16 * rng.below(count.max(1));
    if line + 16 > batch.len() {
        batch.push(0);
        return;
    }
    match rng.below(10) {
        0 => batch[0] = rng.pick(&[count as u8 + 1, (count as u8).wrapping_sub(1), 17, 255]),
        1 => batch[rng.range(1, 15)] ^= 1 << rng.below(8),
        2 => batch[line] = rng.pick(&[0, MANIFEST, 0x0E, 0xEF, 0x80]),
        3 => batch[line + 1] = rng.pick(&[1, 0x80]),
        4 => batch[line + 2 + rng.below(2)] ^= 1 << rng.below(8),
        5 => batch[line + 4 + rng.below(4)] ^= 1 << rng.below(8),
        6 => batch[line + 8 + rng.below(4)] ^= 1 << rng.below(8),
        7 => batch[line + 12 + rng.below(4)] ^= 1 << rng.below(8),
        8 => batch.truncate(batch.len() - 1),
        _ => super::damage(rng, batch),
    }
}

/// A list of ids to retire: those of live segments, or with a fault of each kind.
pub fn retirement(rng: &mut Rng, file: &[u8]) -> Vec<u64> {
    let Ok(opened) = manifest::open(file) else {
        return if rng.once_in(4) { vec![rng.below(3) as u64] } else { Vec::new() };
    };
    let entries = manifest::directory(file, &opened).chunks_exact(manifest::ENTRY);
    let entries: Vec<manifest::Entry> = entries.map(manifest::Entry::read).collect();
    let may: Vec<u64> = entries.iter().filter(|e| e.kind != MANIFEST && e.state == 0).map(|e| e.id).collect();
    let mut list: Vec<u64> = may.iter().copied().filter(|_| rng.once_in(4)).collect();
    if rng.once_in(6) {
        let wrong = match rng.below(5) {
            0 => opened.id,
            1 => opened.id.wrapping_add(1),
            2 => entries.get(rng.below(entries.len().max(1))).map_or(0, |entry| entry.id),
            3 => list.first().copied().unwrap_or(5),
            _ => rng.value(),
        };
        let at = rng.below(list.len() + 1);
        list.insert(at, wrong);
    }
    if rng.once_in(3) {
        list.reverse();
    }
    list
}

#[cfg(test)]
mod tests {
    use super::*;
    use crate::reference::append::{append, Bodies};
    use crate::reference::{store, vecseg};

    /// The generators must reach what the comparisons are about.
    #[test]
    fn answers_of_every_kind_occur() {
        let mut rng = Rng::new(8);
        let mut seen = [0usize; 10];
        for _ in 0..3_000 {
            let file = vector_file(&mut rng).bytes;
            let id = vector_ids(&mut rng, 1)[0];
            seen[store::vector(&file, id, &mut [0; 20]).err().unwrap_or(0) as usize] += 1;
        }
        assert!([0, 2, 4, 5, 6, 7, 8, 9].iter().all(|&number| seen[number] > 10), "{seen:?}");
    }

    #[test]
    fn batches_are_right_and_wrong() {
        let mut rng = Rng::new(9);
        let mut seen = [0usize; 15];
        for _ in 0..4_000 {
            let mut buffer = vector_file(&mut rng).bytes;
            let n = buffer.len();
            let retire = retirement(&mut rng, &buffer);
            let batch = batch(&mut rng);
            buffer.resize(n + 40_000, 0);
            seen[append(&mut buffer, n as u64, &batch.bytes, &retire, 1).err().unwrap_or(0) as usize] += 1;
            if let Ok(bodies) = Bodies::of(&batch.bytes) {
                let broken = bodies.iter().any(|body| body.kind == VEC && vecseg::check(body.bytes).is_err());
                seen[3] += usize::from(broken);
            }
        }
        assert!([0, 2, 3, 5, 6, 7, 10, 11].iter().all(|&number| seen[number] > 5), "{seen:?}");
    }
}
