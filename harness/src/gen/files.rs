//! Whole files for the comparisons: random ones with faults, spoilt ones, tails, and
//! hostile runs of candidates.

pub use super::builder::{Builder, Fault, Place};
use super::{payloads, Rng};
use crate::reference::manifest::{ENTRY, RECORD_HEAD, ROOT};
use crate::reference::round64;
use crate::reference::segment::{self, HEADER, MANIFEST, VEC};

/// A fault anywhere in a manifest; fields are hit more often than long runs of zeros.
pub fn fault(rng: &mut Rng) -> Fault {
    let bits = rng.pick(&[1, 1, 2, 0x80, 0xFF]);
    let place = match rng.below(8) {
        0 => Place::Record(rng.below(8)),
        1 | 2 => Place::Entry(rng.below(64), rng.below(ENTRY)),
        3 => Place::Fill(rng.below(64)),
        4 => Place::Root(rng.below(40)),
        5 => Place::Root(rng.range(40, ROOT - 5)),
        6 => Place::RootCrc(rng.below(4)),
        _ => Place::Hash(rng.below(16)),
    };
    (place, bits)
}

/// A type that a file's segments may have, now and then a reserved one.
pub fn kind(rng: &mut Rng) -> u8 {
    if rng.once_in(6) { rng.pick(&[0x0E, 0x0F, 0x20, 0x80, 0xEF]) } else { body_kind(rng) }
}

/// A type that a batch may bring.
pub fn body_kind(rng: &mut Rng) -> u8 {
    rng.pick(&[1, 1, 1, 2, 3, 4, 6, 7, 7, 8, 9, 10, 11, 12, 13, 0xF0, 0xF7, 0xFF])
}

pub fn flags(rng: &mut Rng) -> u16 {
    rng.next() as u16 & segment::FLAGS
}

pub fn first_id(rng: &mut Rng) -> u64 {
    match rng.below(6) {
        0 => u64::MAX - rng.below(12) as u64,
        1 => rng.value(),
        2 => 1 << 32,
        _ => rng.below(3) as u64,
    }
}

/// Bytes of a body that lies at `at`: noise, vectors, a small file of its own whose
/// manifests name true places, or a lone piece of one.
fn body(rng: &mut Rng, at: usize, kind: u8, depth: usize) -> Vec<u8> {
    if kind == VEC && !rng.once_in(4) {
        return payloads::draft(rng, true).bytes();
    }
    if depth == 0 && rng.once_in(6) {
        // Aligned as it comes; now and then moved by some bytes in front.
        let mut bytes = vec![0; if rng.once_in(3) { rng.range(1, 63) } else { 0 }];
        let first = first_id(rng);
        let inner = builder(rng, at + HEADER + bytes.len(), first, 1).bytes;
        bytes.extend_from_slice(&inner);
        return bytes;
    }
    let length = rng.pick(&[0, 1, 10, 63, 64, 65, 100, 128, 200]);
    rng.bytes(length)
}

/// A file of a few batches, its manifests mostly right.
pub fn builder(rng: &mut Rng, base: usize, first_id: u64, depth: usize) -> Builder {
    let mut file = Builder::new(base, first_id);
    let batches = if depth == 0 { rng.range(1, 3) } else { 1 };
    for _ in 0..batches {
        for _ in 0..rng.pick(&[0, 1, 1, 2, 3]) {
            let kind = kind(rng);
            let at = file.base + file.bytes.len();
            let payload = body(rng, at, kind, depth);
            let flags = flags(rng);
            let offset = file.body(kind, flags, rng.next(), &payload);
            if rng.once_in(12) {
                // A link that is not whole: the hash is wrong, the header still sound.
                file.bytes[offset + 40 + rng.below(16)] ^= 1;
            }
            if rng.once_in(10) {
                file.next_id = file.next_id.wrapping_add(rng.pick(&[1, 5, 1 << 33, u64::MAX, 0]));
            }
        }
        if rng.once_in(3) {
            file.retire(rng);
        }
        let flags = if rng.once_in(4) { flags(rng) } else { 0 };
        let time = rng.next();
        let mut links = file.links.clone();
        match rng.below(24) {
            0 => drop(links.pop()),
            1 if !links.is_empty() => drop(links.remove(0)),
            2 if !links.is_empty() => links.push(links[0]),
            3 if links.len() > 1 => links.swap(0, 1),
            4 => links.clear(),
            _ => (),
        }
        let faults: Vec<Fault> = (0..rng.pick(&[0, 0, 0, 0, 1, 2])).map(|_| fault(rng)).collect();
        file.manifest_of(&links, flags, time, &faults);
    }
    file
}

/// A change somewhere in a built file, most likely where a rule looks.
pub fn spoil(rng: &mut Rng, file: &Builder, bytes: &mut Vec<u8>) {
    if file.links.is_empty() || bytes.is_empty() {
        return;
    }
    let index = rng.below(file.links.len());
    let offset = file.links[index].0;
    let next = file.links.get(index + 1).map_or(bytes.len(), |link| link.0);
    let bits = rng.pick(&[1, 2, 0x10, 0x80, 0xFF]);
    let at = match rng.below(8) {
        // A header, byte by byte; its length field; the padding; the whole segment.
        0 | 1 => offset + rng.below(HEADER),
        2 => offset + 16 + rng.below(3),
        3 => next.saturating_sub(rng.range(1, 64)),
        4 => offset + rng.below(next.saturating_sub(offset).max(1)),
        5 => next.saturating_sub(rng.range(1, ROOT)),
        6 => offset + HEADER + rng.below(RECORD_HEAD + 2 * ENTRY),
        _ => {
            let inside = offset + rng.below(HEADER + 1);
            let cut = rng.pick(&[offset, inside, next.saturating_sub(1), next.saturating_sub(64)]);
            bytes.truncate(cut);
            return;
        }
    };
    if let Some(byte) = bytes.get_mut(at) {
        *byte ^= bits;
    }
}

/// What may stand behind a file: nothing, noise, zeros, the torn front of more.
pub fn tail(rng: &mut Rng, file: &mut Builder) -> Vec<u8> {
    match rng.below(8) {
        0 => vec![0; rng.pick(&[1, 63, 64, 65, 200])],
        1 => {
            let length = rng.range(1, 300);
            rng.bytes(length)
        }
        2..=4 => {
            let from = file.bytes.len();
            let mut more = file.clone();
            let payload = rng.bytes(70);
            more.body(7, 8, 5, &payload);
            let faults: Vec<Fault> = (0..rng.below(2)).map(|_| fault(rng)).collect();
            more.manifest(0, 5, &faults);
            let torn = &more.bytes[from..];
            torn[..rng.below(torn.len() + 1)].to_vec()
        }
        _ => Vec::new(),
    }
}

/// A file to open: some right, most with a fault or a tail of some kind.
pub fn file(rng: &mut Rng) -> Vec<u8> {
    let first = first_id(rng);
    let mut built = builder(rng, 0, first, 0);
    let mut bytes = built.bytes.clone();
    bytes.extend(tail(rng, &mut built));
    for _ in 0..rng.pick(&[0, 0, 1, 1, 2]) {
        spoil(rng, &built, &mut bytes);
    }
    if rng.once_in(20) {
        super::damage(rng, &mut bytes);
    }
    bytes
}

/// A hostile run of `boundaries` boundaries from `at` on: manifest headers, each with
/// a root at the place its length gives that names this header, and none a link.
///
/// With `formed`, lengths are those of the manifest's form, so a root stands at a
/// boundary too: runs of headers and of their roots take turns, half of the boundaries
/// each. Otherwise every boundary is a header, and the front of another's root (magic,
/// version, count, offset) hides in its sixteen hash bytes.
pub fn candidates(at: usize, boundaries: usize, count: usize, formed: bool) -> Vec<u8> {
    let contents = round64(RECORD_HEAD + ENTRY * count);
    let run = 1 + contents / 64;
    let length = if formed { contents + ROOT } else { contents + 40 + ROOT };
    let mut bytes = vec![0; 64 * boundaries];
    for index in 0..boundaries {
        let p = at + 64 * index;
        if formed && index / run % 2 == 1 {
            continue;
        }
        let id = 1_000_000 + index as u64;
        let header = &mut bytes[64 * index..][..HEADER];
        header[..4].copy_from_slice(&segment::MAGIC);
        header[4] = 1;
        header[5] = MANIFEST;
        header[8..16].copy_from_slice(&id.to_le_bytes());
        header[16..24].copy_from_slice(&(length as u64).to_le_bytes());
        let mut front = b"RVM0\x01\x00".to_vec();
        front.extend_from_slice(&(count as u16).to_le_bytes());
        front.extend_from_slice(&(p as u64).to_le_bytes());
        if formed {
            front.extend_from_slice(&id.to_le_bytes());
            front.extend_from_slice(&((RECORD_HEAD + ENTRY * count) as u64).to_le_bytes());
            front.extend_from_slice(&((p + HEADER + length) as u64).to_le_bytes());
        }
        let root = 64 * index + HEADER + length - ROOT;
        if let Some(place) = bytes.get_mut(root..root + front.len()) {
            place.copy_from_slice(&front);
        }
    }
    bytes
}
