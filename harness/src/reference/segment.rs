//! Segment headers and the chain, document 01, section "The chain from byte 0"; the
//! header's fields stand where section 3 of the source format puts them.

use super::{all_zero, crc, le16, le32, le64, round64};

/// Bytes of a header, and the alignment of segments.
pub const HEADER: usize = 64;
/// The magic in file order.
pub const MAGIC: [u8; 4] = *b"RVFS";
/// The segment types that the store looks into.
pub const VEC: u8 = 0x01;
pub const MANIFEST: u8 = 0x05;
/// SEALED, HOT, OVERLAY, SNAPSHOT and CHECKPOINT.
pub const FLAGS: u16 = 0x03C8;

/// Types that a sound header may have.
#[inline]
pub fn type_allowed(kind: u8) -> bool {
    kind != 0
}

/// Types that are walked past and listed, but never handed out and never taken in a batch.
#[inline]
pub fn type_reserved(kind: u8) -> bool {
    matches!(kind, 0x0E..=0xEF)
}

/// Flags that a sound header may have.
#[inline]
pub fn flags_allowed(flags: u16) -> bool {
    flags & !FLAGS == 0
}

/// A link of the chain: a sound header and where its segment ends.
#[derive(Clone, Copy, Debug, PartialEq, Eq)]
pub struct Link {
    pub offset: usize,
    /// Offset of the next segment.
    pub end: usize,
    pub id: u64,
    pub length: usize,
    pub kind: u8,
    pub flags: u16,
}

impl Link {
    pub fn payload<'a>(&self, file: &'a [u8]) -> &'a [u8] {
        &file[self.offset + HEADER..self.offset + HEADER + self.length]
    }

    /// The sixteen bytes of the header's content hash, right or wrong.
    pub fn hash<'a>(&self, file: &'a [u8]) -> &'a [u8] {
        &file[self.offset + 40..self.offset + 56]
    }

    /// Whole: the content hash is the payload's.
    pub fn whole(&self, file: &[u8]) -> bool {
        hash_equal(self.hash(file), self.payload(file))
    }
}

/// The CRC32C as u32, then twelve zeros.
pub fn content_hash(payload: &[u8]) -> [u8; 16] {
    let mut hash = [0; 16];
    hash[..4].copy_from_slice(&crc::crc32c(payload).to_le_bytes());
    hash
}

/// True if the sixteen bytes are the payload's content hash. The zeros come first:
/// they cost nothing.
pub fn hash_equal(hash: &[u8], payload: &[u8]) -> bool {
    all_zero(&hash[4..16]) && le32(hash, 0) == crc::crc32c(payload)
}

/// The link at `p` if the header there is sound. `before` is the id of the link
/// before, `None` for the first.
#[inline]
pub fn sound(file: &[u8], p: usize, before: Option<u64>) -> Option<Link> {
    let header: &[u8; HEADER] = file.get(p..p.checked_add(HEADER)?)?.try_into().ok()?;
    let kind = header[5];
    let flags = le16(header, 6);
    let id = le64(header, 8);
    let length = le64(header, 16);
    // Bytes 32 to 39: checksum_algo, compression and both reserved fields; 56 to 63:
    // uncompressed_len and alignment_pad. The timestamp at 24 may be anything.
    let fields = header[..4] == MAGIC
        && header[4] == 1
        && type_allowed(kind)
        && flags_allowed(flags)
        && le64(header, 32) == 0
        && le64(header, 56) == 0;
    if !fields || before.is_some_and(|before| id <= before) {
        return None;
    }
    // The end is a sum of plain numbers: a huge length is an end above the file's.
    if length > (file.len() - p - HEADER) as u64 {
        return None;
    }
    let length = length as usize;
    let end = p + HEADER + round64(length);
    let padding = file.get(p + HEADER + length..end)?;
    all_zero(padding).then_some(Link { offset: p, end, id, length, kind, flags })
}

/// The chain from byte 0 to the first place without a sound header.
pub struct Chain<'a> {
    file: &'a [u8],
    at: usize,
    before: Option<u64>,
}

pub fn chain(file: &[u8]) -> Chain<'_> {
    Chain { file, at: 0, before: None }
}

impl Iterator for Chain<'_> {
    type Item = Link;

    #[inline]
    fn next(&mut self) -> Option<Link> {
        // Where it stops it stays: a place without a sound header gives none again.
        let link = sound(self.file, self.at, self.before)?;
        self.at = link.end;
        self.before = Some(link.id);
        Some(link)
    }
}

/// Writes a segment at the front of `room`, which is exactly as long as the segment
/// and already has the payload in place: header and padding.
pub fn seal(room: &mut [u8], kind: u8, flags: u16, id: u64, length: usize, timestamp: u64) {
    let hash = content_hash(&room[HEADER..HEADER + length]);
    let header = &mut room[..HEADER];
    header.fill(0);
    header[..4].copy_from_slice(&MAGIC);
    header[4] = 1;
    header[5] = kind;
    header[6..8].copy_from_slice(&flags.to_le_bytes());
    header[8..16].copy_from_slice(&id.to_le_bytes());
    header[16..24].copy_from_slice(&(length as u64).to_le_bytes());
    header[24..32].copy_from_slice(&timestamp.to_le_bytes());
    header[40..56].copy_from_slice(&hash);
    room[HEADER + length..].fill(0);
}

#[cfg(test)]
mod tests {
    use super::*;

    fn two_segments() -> Vec<u8> {
        let mut file = vec![0xA5; 320];
        seal(&mut file[..192], 7, 8, 5, 100, 1);
        seal(&mut file[192..256], 0xF0, 0x03C0, 6, 0, u64::MAX);
        file
    }

    #[test]
    fn the_chain_stops_at_the_first_unsound_place() {
        let file = two_segments();
        let links: Vec<Link> = chain(&file).collect();
        assert_eq!(links.len(), 2);
        assert_eq!((links[0].end, links[1].offset, links[1].end), (192, 192, 256));
        assert!(links.iter().all(|link| link.whole(&file)));
        assert_eq!(chain(&file[..255]).count(), 1);
        assert_eq!(chain(&file[..191]).count(), 0);
        assert_eq!(chain(&[]).count(), 0);
    }

    #[test]
    fn every_fixed_byte_of_the_first_header_matters() {
        // Bytes that may change without the first link falling: type, id, timestamp and
        // content hash. (The bit flipped here takes the flags out of their set; of the types
        // only 0 is none.)
        let free = |at: usize| matches!(at, 5 | 8..=15 | 24..=31 | 40..=55);
        for at in 0..HEADER {
            let mut file = two_segments();
            file[at] ^= 0x20;
            assert_eq!(chain(&file).count() == 0, !free(at), "byte {at}");
        }
        let mut file = two_segments();
        file[5] = 0;
        assert_eq!(chain(&file).count(), 0);
    }
}
