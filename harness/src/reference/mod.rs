//! An independent implementation of documents 01 and 02 in plain Rust. It was written from
//! the rules alone and shares nothing with the library it is compared with. It is
//! also the speed baseline, so it copies nothing it need not copy.
//!
//! One function stands for each exported call; each answers `Result<values, u32>`,
//! the error being the refusal number of document 01.

pub mod append;
pub mod compact;
pub mod crc;
pub mod idmap;
pub mod lister;
pub mod manifest;
pub mod segment;
pub mod sparse;
pub mod store;
pub mod varint;
pub mod vecseg;

/// The bounds of document 01, section "What the recorder's files hold".
pub mod limits {
    /// Longest file, in bytes.
    pub const FILE: usize = 16_777_216;
    /// Most directory entries in a manifest.
    pub const ENTRIES: usize = 1_024;
    /// Most bodies in a batch.
    pub const BODIES: usize = 16;
    /// Shortest and longest batch, in bytes.
    pub const BATCH_MIN: usize = 16;
    pub const BATCH_MAX: usize = 1_048_576;
    /// Most blocks in a VEC_SEG payload.
    pub const BLOCKS: usize = 64;
    /// Most vectors in a block (the fewest is 1).
    pub const VECTORS: usize = 4_096;
    /// Highest dimension of a vector (the lowest is 1).
    pub const DIM: usize = 1_024;
    /// Longest file that the lister reads.
    pub const LISTED: usize = 65_536;
    /// Room for the longest list: 1,027 lines of at most 97 bytes.
    pub const LIST_ROOM: usize = 102_400;
    /// Restart interval that a writer takes when asked for 0 with delta.
    pub const DEFAULT_INTERVAL: u64 = 64;
}

/// The refusal numbers of document 01, section "Numbers of refusal".
pub mod refusal {
    pub const FILE_TOO_LONG: u32 = 1;
    pub const NO_MANIFEST: u32 = 2;
    pub const NOT_LIVE: u32 = 3;
    pub const CONTENT_HASH: u32 = 4;
    pub const LAYOUT: u32 = 5;
    pub const DTYPE: u32 = 6;
    pub const BLOCK_CRC: u32 = 7;
    pub const NO_VECTOR: u32 = 8;
    pub const NO_ROOM: u32 = 9;
    pub const BATCH: u32 = 10;
    pub const RETIRE: u32 = 11;
    pub const DIRECTORY_FULL: u32 = 12;
    pub const IDS_USED_UP: u32 = 13;
    pub const INPUT: u32 = 14;
    pub const RESERVED_TYPE: u32 = 15;
    /// No number of document 01: the index of an entry is at or above the count.
    pub const NO_ENTRY: u32 = 255;
}

/// Little-endian numbers at a place. The caller has checked the room.
#[inline(always)]
pub fn le16(bytes: &[u8], at: usize) -> u16 {
    u16::from_le_bytes(bytes[at..at + 2].try_into().unwrap())
}

#[inline(always)]
pub fn le32(bytes: &[u8], at: usize) -> u32 {
    u32::from_le_bytes(bytes[at..at + 4].try_into().unwrap())
}

#[inline(always)]
pub fn le64(bytes: &[u8], at: usize) -> u64 {
    u64::from_le_bytes(bytes[at..at + 8].try_into().unwrap())
}

/// The next multiple of 64, the number itself if it is one.
#[inline(always)]
pub fn round64(n: usize) -> usize {
    n.div_ceil(64) * 64
}

/// True if every byte is zero. Joined by "or" rather than left early: the loop then
/// becomes wide loads.
#[inline]
pub fn all_zero(bytes: &[u8]) -> bool {
    bytes.iter().fold(0u8, |seen, &b| seen | b) == 0
}

#[cfg(test)]
mod tests {
    use super::*;

    #[test]
    fn numbers_are_little_endian() {
        let bytes = [1, 2, 3, 4, 5, 6, 7, 8, 9];
        assert_eq!(le16(&bytes, 1), 0x0302);
        assert_eq!(le32(&bytes, 0), 0x0403_0201);
        assert_eq!(le64(&bytes, 1), 0x0908_0706_0504_0302);
    }

    #[test]
    fn rounding_up() {
        for (n, up) in [(0, 0), (1, 64), (63, 64), (64, 64), (65, 128), (4_160, 4_160)] {
            assert_eq!(round64(n), up);
        }
    }

    #[test]
    fn one_bit_anywhere_is_seen() {
        for at in 0..200 {
            let mut bytes = [0u8; 200];
            assert!(all_zero(&bytes));
            bytes[at] = 0x80;
            assert!(!all_zero(&bytes));
        }
    }
}
