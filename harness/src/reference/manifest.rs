//! The manifest, its directory and opening, document 01, section "The manifest:
//! contents first, then the root".
//!
//! Opening is here twice: as the definition has it, by the walk from byte 0
//! (`open_by_walk`), and by the search from the end (`open`), whose work is linear in
//! the file whatever the file holds.

use super::refusal::{FILE_TOO_LONG, NO_ENTRY, NO_MANIFEST};
use super::segment::{self, Link, HEADER, MANIFEST};
use super::{all_zero, crc, le16, le32, le64, limits, round64};

/// Bytes of a directory entry, of the record's head and of the root.
pub const ENTRY: usize = 48;
pub const RECORD_HEAD: usize = 8;
pub const ROOT: usize = 4_096;
const ROOT_MAGIC: [u8; 4] = *b"RVM0";

pub const LIVE: u8 = 0;
pub const RETIRED: u8 = 1;

/// Payload length of a manifest with `count` entries.
pub fn payload_length(count: usize) -> usize {
    round64(RECORD_HEAD + ENTRY * count) + ROOT
}

/// What opening answers.
#[derive(Clone, Copy, Debug, PartialEq, Eq)]
pub struct Opened {
    pub offset: usize,
    pub end: usize,
    pub id: u64,
    pub count: usize,
    /// Boundaries tried.
    pub tried: usize,
}

/// One line of the directory.
#[derive(Clone, Copy, Debug, PartialEq, Eq)]
pub struct Entry {
    pub offset: u64,
    pub id: u64,
    pub length: u64,
    pub hash: [u8; 16],
    pub kind: u8,
    pub state: u8,
    pub flags: u16,
}

impl Entry {
    /// The payload's place in the file; the directory is that of a confirmed manifest.
    pub fn payload<'a>(&self, file: &'a [u8]) -> &'a [u8] {
        &file[self.offset as usize + HEADER..][..self.length as usize]
    }

    pub fn read(bytes: &[u8]) -> Entry {
        Entry {
            offset: le64(bytes, 0),
            id: le64(bytes, 8),
            length: le64(bytes, 16),
            hash: bytes[24..40].try_into().unwrap(),
            kind: bytes[40],
            state: bytes[41],
            flags: le16(bytes, 42),
        }
    }

    pub fn write(&self, bytes: &mut [u8]) {
        bytes[..8].copy_from_slice(&self.offset.to_le_bytes());
        bytes[8..16].copy_from_slice(&self.id.to_le_bytes());
        bytes[16..24].copy_from_slice(&self.length.to_le_bytes());
        bytes[24..40].copy_from_slice(&self.hash);
        bytes[40] = self.kind;
        bytes[41] = self.state;
        bytes[42..44].copy_from_slice(&self.flags.to_le_bytes());
        bytes[44..48].fill(0);
    }
}

/// True if an entry's 48 bytes copy the header at `offset` and have a state that the
/// type allows. The hash is copied as it stands there, right or wrong.
#[inline]
fn entry_matches(entry: &[u8], file: &[u8], offset: usize) -> bool {
    let entry: &[u8; ENTRY] = entry.try_into().unwrap();
    let header: &[u8; HEADER] = file[offset..offset + HEADER].try_into().unwrap();
    let state_allowed = entry[41] == LIVE || (entry[41] == RETIRED && entry[40] != MANIFEST);
    le64(entry, 0) == offset as u64
        && entry[8..24] == header[8..24]
        && entry[24..40] == header[40..56]
        && entry[40] == header[5]
        && state_allowed
        && entry[42..44] == header[6..8]
        && le32(entry, 44) == 0
}

/// The root of a manifest link that has `count` entries, but for the checksum.
fn root_matches(root: &[u8], link: &Link, count: usize) -> bool {
    root[..4] == ROOT_MAGIC
        && le16(root, 4) == 1
        && le16(root, 6) as usize == count
        && le64(root, 8) == link.offset as u64
        && le64(root, 16) == link.id
        && le64(root, 24) == (RECORD_HEAD + ENTRY * count) as u64
        && le64(root, 32) == link.end as u64
        && all_zero(&root[40..ROOT - 4])
}

/// Confirmed: a whole link, exactly of the form, its entries all the links before it
/// (whose offsets are `before`), in order and equal in every copied field.
pub fn confirmed(file: &[u8], link: &Link, before: &[usize]) -> bool {
    let count = before.len();
    if link.kind != MANIFEST || count > limits::ENTRIES || link.length != payload_length(count) {
        return false;
    }
    let payload = link.payload(file);
    let (contents, root) = payload.split_at(link.length - ROOT);
    let used = RECORD_HEAD + ENTRY * count;
    le16(contents, 0) == 1
        && le32(contents, 2) as usize == ENTRY * count
        && le16(contents, 6) == 0
        && all_zero(&contents[used..])
        && root_matches(root, link, count)
        && contents[RECORD_HEAD..used]
            .chunks_exact(ENTRY)
            .zip(before)
            .all(|(entry, &offset)| entry_matches(entry, file, offset))
        && le32(root, ROOT - 4) == crc::crc32c(&root[..ROOT - 4])
        && link.whole(file)
}

fn answer(file: &[u8], link: &Link, count: usize) -> Opened {
    Opened { offset: link.offset, end: link.end, id: link.id, count, tried: file.len() / 64 - link.offset / 64 }
}

/// The boundaries tried where none is confirmed; opening's refusal 2 answers them.
pub fn tried_without(file: &[u8]) -> usize {
    file.len() / 64
}

/// Opening by the definition: walk the whole chain, keep the last confirmed manifest.
pub fn open_by_walk(file: &[u8]) -> Result<Opened, u32> {
    if file.len() > limits::FILE {
        return Err(FILE_TOO_LONG);
    }
    let mut before = Vec::new();
    let mut last = None;
    for link in segment::chain(file) {
        if confirmed(file, &link, &before) {
            last = Some(answer(file, &link, before.len()));
        }
        before.push(link.offset);
    }
    last.ok_or(NO_MANIFEST)
}

/// The cheap look at a boundary: magic and type, and at the place where its length
/// puts it a root that names this offset. Answers the count that the root claims.
#[inline]
fn candidate(file: &[u8], p: usize) -> Option<usize> {
    let header = &file[p..p + HEADER];
    // Magic, version and type are the first six bytes.
    let front = u64::from_le_bytes([b'R', b'V', b'F', b'S', 1, MANIFEST, 0, 0]);
    if le64(header, 0) & 0x0000_FFFF_FFFF_FFFF != front {
        return None;
    }
    let length = le64(header, 16);
    if length < ROOT as u64 || length > (file.len() - p - HEADER) as u64 {
        return None;
    }
    let root = p + HEADER + length as usize - ROOT;
    let count = le16(file, root + 6) as usize;
    let names_itself = file[root..root + 4] == ROOT_MAGIC && le64(file, root + 8) == p as u64;
    (names_itself && count <= limits::ENTRIES).then_some(count)
}

/// Opening by the search from the end.
///
/// The first candidate causes one walk from byte 0, up to that candidate or to the
/// last link that can be a manifest at all (1,024 links before it). Every later
/// candidate stands lower, so the same walk serves it: it must be the link that has
/// as many links before it as its root says. Only such a link is looked at whole, and
/// links don't overlap; so all work together is linear in the file.
pub fn open(file: &[u8]) -> Result<Opened, u32> {
    if file.len() > limits::FILE {
        return Err(FILE_TOO_LONG);
    }
    let mut walked: Option<Vec<usize>> = None;
    let mut p = file.len() / 64 * 64;
    while p > 0 {
        p -= 64;
        let Some(count) = candidate(file, p) else {
            continue;
        };
        let offsets = walked.get_or_insert_with(|| {
            let reach = segment::chain(file).take(limits::ENTRIES + 1).take_while(|link| link.offset <= p);
            reach.map(|link| link.offset).collect()
        });
        if offsets.get(count) != Some(&p) {
            continue;
        }
        // It is a link of the chain, so its header is sound with any id before it.
        if let Some(link) = segment::sound(file, p, None) {
            if confirmed(file, &link, &offsets[..count]) {
                return Ok(answer(file, &link, count));
            }
        }
    }
    Err(NO_MANIFEST)
}

/// The directory's bytes, one entry after the other.
pub fn directory<'a>(file: &'a [u8], opened: &Opened) -> &'a [u8] {
    &file[opened.offset + HEADER + RECORD_HEAD..][..ENTRY * opened.count]
}

/// The directory entry at an index.
pub fn entry(file: &[u8], index: u64) -> Result<Entry, u32> {
    let opened = open(file)?;
    if index >= opened.count as u64 {
        return Err(NO_ENTRY);
    }
    Ok(Entry::read(&directory(file, &opened)[ENTRY * index as usize..][..ENTRY]))
}

/// Writes the manifest segment at the front of `room`, which is exactly as long as
/// the segment and already has its entries in place.
pub fn seal(room: &mut [u8], offset: usize, id: u64, count: usize, timestamp: u64) {
    let length = payload_length(count);
    let used = RECORD_HEAD + ENTRY * count;
    let end = offset + room.len();
    let payload = &mut room[HEADER..HEADER + length];
    payload[..2].copy_from_slice(&1u16.to_le_bytes());
    payload[2..6].copy_from_slice(&((ENTRY * count) as u32).to_le_bytes());
    payload[6..8].fill(0);
    let root_at = length - ROOT;
    payload[used..].fill(0);
    let root = &mut payload[root_at..];
    root[..4].copy_from_slice(&ROOT_MAGIC);
    root[4] = 1;
    root[6..8].copy_from_slice(&(count as u16).to_le_bytes());
    root[8..16].copy_from_slice(&(offset as u64).to_le_bytes());
    root[16..24].copy_from_slice(&id.to_le_bytes());
    root[24..32].copy_from_slice(&(used as u64).to_le_bytes());
    root[32..40].copy_from_slice(&(end as u64).to_le_bytes());
    let crc = crc::crc32c(&root[..ROOT - 4]);
    root[ROOT - 4..].copy_from_slice(&crc.to_le_bytes());
    segment::seal(room, MANIFEST, 0, id, length, timestamp);
}

#[cfg(test)]
mod tests {
    use super::*;

    #[test]
    fn an_empty_file_refuses_2() {
        assert_eq!((open(&[]), open_by_walk(&[]), tried_without(&[])), (Err(2), Err(2), 0));
        assert_eq!(payload_length(1_024) + HEADER, 53_376);
    }

    #[test]
    fn a_lone_manifest_opens_and_every_byte_of_it_matters() {
        let mut file = vec![0; 4_224];
        seal(&mut file, 0, 9, 0, 77);
        let wanted = Opened { offset: 0, end: 4_224, id: 9, count: 0, tried: 66 };
        assert_eq!((open(&file), open_by_walk(&file)), (Ok(wanted), Ok(wanted)));
        for at in 0..file.len() {
            let mut broken = file.clone();
            broken[at] ^= 0x40;
            // Flags and timestamp of a manifest's header are free.
            let free = at == 6 || (24..32).contains(&at);
            assert_eq!(open(&broken), if free { Ok(wanted) } else { Err(2) }, "byte {at}");
            assert_eq!(open(&broken), open_by_walk(&broken), "byte {at}");
        }
    }
}
