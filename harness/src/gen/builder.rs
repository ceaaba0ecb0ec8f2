//! A builder puts segments and manifests one behind the other; a fault can be put into
//! a manifest before its checksums are made, so that it stands alone and only the rule
//! it breaks can notice it.

use super::Rng;
use crate::reference::manifest::{ENTRY, RECORD_HEAD, RETIRED, ROOT};
use crate::reference::segment::{self, HEADER, MANIFEST};
use crate::reference::{crc, round64};

/// A byte of a manifest that a fault changes, before the checksums behind it are made.
#[derive(Clone, Copy, Debug)]
pub enum Place {
    /// A byte of the record's head, of an entry (index, byte), of the fill, of the root.
    Record(usize),
    Entry(usize, usize),
    Fill(usize),
    Root(usize),
    /// A byte of the root's checksum or of the header's content hash, made wrong.
    RootCrc(usize),
    Hash(usize),
}

/// A change of one byte: the bits that are flipped.
pub type Fault = (Place, u8);

/// A file that grows by segments. `base` is where its first byte will lie in the file
/// that is opened: above 0 for a file inside a body.
#[derive(Clone)]
pub struct Builder {
    pub bytes: Vec<u8>,
    pub base: usize,
    /// Offsets of the segments so far, from this file's first byte, with their states.
    pub links: Vec<(usize, u8)>,
    pub next_id: u64,
}

impl Builder {
    pub fn new(base: usize, first_id: u64) -> Builder {
        Builder { bytes: Vec::new(), base, links: Vec::new(), next_id: first_id }
    }

    /// A segment with a right hash. Returns its offset.
    pub fn body(&mut self, kind: u8, flags: u16, time: u64, payload: &[u8]) -> usize {
        let at = self.bytes.len();
        self.bytes.resize(at + HEADER + round64(payload.len()), 0);
        self.bytes[at + HEADER..][..payload.len()].copy_from_slice(payload);
        segment::seal(&mut self.bytes[at..], kind, flags, self.next_id, payload.len(), time);
        self.links.push((at, 0));
        self.next_id = self.next_id.wrapping_add(1);
        at
    }

    /// A manifest of all links so far, with faults. Returns its offset.
    pub fn manifest(&mut self, flags: u16, time: u64, faults: &[Fault]) -> usize {
        let links = self.links.clone();
        self.manifest_of(&links, flags, time, faults)
    }

    /// A manifest whose entries are those of the given links.
    pub fn manifest_of(&mut self, links: &[(usize, u8)], flags: u16, time: u64, faults: &[Fault]) -> usize {
        let at = self.bytes.len();
        let contents = round64(RECORD_HEAD + ENTRY * links.len());
        let length = contents + ROOT;
        let mut payload = vec![0; length];
        payload[0] = 1;
        payload[2..6].copy_from_slice(&((ENTRY * links.len()) as u32).to_le_bytes());
        for (index, (offset, state)) in links.iter().enumerate() {
            let header = &self.bytes[*offset..*offset + HEADER];
            let entry = &mut payload[RECORD_HEAD + ENTRY * index..][..ENTRY];
            entry[..8].copy_from_slice(&((self.base + offset) as u64).to_le_bytes());
            entry[8..24].copy_from_slice(&header[8..24]);
            entry[24..40].copy_from_slice(&header[40..56]);
            entry[40] = header[5];
            entry[41] = *state;
            entry[42..44].copy_from_slice(&header[6..8]);
        }
        let root = contents;
        payload[root..root + 4].copy_from_slice(b"RVM0");
        payload[root + 4] = 1;
        payload[root + 6..][..2].copy_from_slice(&(links.len() as u16).to_le_bytes());
        let end = self.base + at + HEADER + length;
        let numbers = [(8, self.base + at), (24, RECORD_HEAD + ENTRY * links.len()), (32, end)];
        for (place, number) in numbers {
            payload[root + place..][..8].copy_from_slice(&(number as u64).to_le_bytes());
        }
        payload[root + 16..][..8].copy_from_slice(&self.next_id.to_le_bytes());
        let used = RECORD_HEAD + ENTRY * links.len();
        for (place, bits) in faults {
            match *place {
                Place::Record(byte) => payload[byte] ^= bits,
                Place::Entry(index, byte) if !links.is_empty() => {
                    payload[RECORD_HEAD + ENTRY * (index % links.len()) + byte] ^= bits
                }
                Place::Fill(byte) if used < contents => payload[used + byte % (contents - used)] ^= bits,
                Place::Root(byte) => payload[root + byte] ^= bits,
                _ => (),
            }
        }
        let crc = crc::crc32c(&payload[root..length - 4]);
        payload[length - 4..].copy_from_slice(&crc.to_le_bytes());
        for (place, bits) in faults {
            if let Place::RootCrc(byte) = *place {
                payload[length - 4 + byte % 4] ^= bits;
            }
        }
        self.body(MANIFEST, flags, time, &payload);
        for (place, bits) in faults {
            if let Place::Hash(byte) = *place {
                self.bytes[at + 40 + byte % 16] ^= bits;
            }
        }
        at
    }

    /// Retires a random link that may be, for the manifests to come.
    pub fn retire(&mut self, rng: &mut Rng) {
        if !self.links.is_empty() {
            let index = rng.below(self.links.len());
            if self.bytes[self.links[index].0 + 5] != MANIFEST {
                self.links[index].1 = RETIRED;
            }
        }
    }
}
