//! The chain of segments from byte 0, with the reason why it stops where it stops.
//!
//! The store's library walks the same chain and is proved to do so; it does not say why it
//! stops. This walk does. The harness compares the two (`harness/tests/tool_walk.rs`).

use std::fmt::{self, Display, Formatter};

/// Bytes of a header; every segment begins at a multiple of it.
pub const HEADER: usize = 64;
const MAGIC: [u8; 4] = *b"RVFS";
/// SEALED, HOT, OVERLAY, SNAPSHOT and CHECKPOINT.
pub const FLAGS: u16 = 0x03C8;

/// A segment whose header is sound.
#[derive(Clone, Copy, Debug, PartialEq, Eq)]
pub struct Link {
    pub offset: usize,
    /// Where the next segment begins.
    pub end: usize,
    pub id: u64,
    /// The payload's length.
    pub length: usize,
    pub kind: u8,
    pub flags: u16,
}

impl Link {
    pub fn header<'a>(&self, file: &'a [u8]) -> &'a [u8] {
        &file[self.offset..self.offset + HEADER]
    }

    pub fn payload<'a>(&self, file: &'a [u8]) -> &'a [u8] {
        &file[self.offset + HEADER..][..self.length]
    }

    /// The time of the append that wrote it.
    pub fn time(&self, file: &[u8]) -> u64 {
        le64(self.header(file), 24)
    }

    /// Whether the content hash in the header is the payload's.
    pub fn whole(&self, file: &[u8]) -> bool {
        self.header(file)[40..56] == content_hash(self.payload(file))
    }
}

/// The content hash of a payload: its CRC32C, then twelve zeros.
pub fn content_hash(payload: &[u8]) -> [u8; 16] {
    let mut hash = [0; 16];
    hash[..4].copy_from_slice(&rvf::crc32c(payload).to_le_bytes());
    hash
}

/// Why no sound header stands at a place.
#[derive(Clone, Copy, Debug, PartialEq, Eq)]
pub enum Stop {
    /// The place is the end of the file: nothing is wrong.
    FileEnd,
    Room { left: usize },
    Magic { found: [u8; 4] },
    Version(u8),
    Type(u8),
    Flags(u16),
    Algorithm(u8),
    /// A field that must be zero and is not, and where in the header it stands.
    Reserved { field: &'static str, byte: usize },
    Id { id: u64, before: u64 },
    /// The end as a plain number; a length of 64 bits may lead far beyond any file.
    PastEnd { end: u128, length: usize },
    Padding { id: u64, at: usize },
}

impl Stop {
    /// The byte that breaks the rule, where no sound header stands at a place.
    pub fn byte(&self, place: usize) -> usize {
        match self {
            Stop::FileEnd | Stop::Room { .. } | Stop::Magic { .. } => place,
            Stop::Version(_) => place + 4,
            Stop::Type(_) => place + 5,
            Stop::Flags(_) => place + 6,
            Stop::Id { .. } => place + 8,
            Stop::PastEnd { .. } => place + 16,
            Stop::Algorithm(_) => place + 32,
            Stop::Reserved { byte, .. } => place + byte,
            Stop::Padding { at, .. } => *at,
        }
    }
}

impl Display for Stop {
    fn fmt(&self, out: &mut Formatter<'_>) -> fmt::Result {
        match self {
            Stop::FileEnd => write!(out, "the file ends there"),
            Stop::Room { left } => write!(out, "only {left} of the 64 bytes of a header are left"),
            Stop::Magic { found: [a, b, c, d] } => {
                write!(out, "no magic: the bytes there are {a:02x} {b:02x} {c:02x} {d:02x}, not 52 56 46 53")
            }
            Stop::Version(version) => write!(out, "the version is {version}, not 1"),
            Stop::Type(kind) => write!(out, "the type 0x{kind:02x} is not allowed"),
            Stop::Flags(flags) => write!(out, "the flags 0x{flags:04x} are not allowed (only 0x03c8 and parts of it)"),
            Stop::Algorithm(number) => write!(out, "the checksum algorithm is {number}, not 0"),
            Stop::Reserved { field, .. } => write!(out, "the header's field {field} is not zero"),
            Stop::Id { id, before } => write!(out, "the id {id} is not above {before}, the id before it"),
            Stop::PastEnd { end, length } => {
                write!(out, "the segment there would end at byte {end}, the file has {length} bytes")
            }
            Stop::Padding { id, at } => write!(out, "padding of segment {id} at byte {at} is not zero"),
        }
    }
}

/// A chain: its links, and where and why it stops.
#[derive(Clone, Debug)]
pub struct Walk {
    pub links: Vec<Link>,
    pub stopped: usize,
    pub why: Stop,
}

pub fn walk(file: &[u8]) -> Walk {
    let mut links: Vec<Link> = Vec::new();
    let mut at = 0;
    loop {
        match link_at(file, at, links.last().map(|link| link.id)) {
            Ok(link) => {
                at = link.end;
                links.push(link);
            }
            Err(why) => return Walk { links, stopped: at, why },
        }
    }
}

/// The segment at a place; `before` is the id of the one before it, if there is one.
fn link_at(file: &[u8], at: usize, before: Option<u64>) -> Result<Link, Stop> {
    let link = segment_at(file, at, before)?;
    let padding = at + HEADER + link.length;
    match file[padding..link.end].iter().position(|&byte| byte != 0) {
        Some(place) => Err(Stop::Padding { id: link.id, at: padding + place }),
        None => Ok(link),
    }
}

/// The same, whatever its padding holds.
pub fn segment_at(file: &[u8], at: usize, before: Option<u64>) -> Result<Link, Stop> {
    let rest = &file[at..];
    if rest.is_empty() {
        return Err(Stop::FileEnd);
    }
    let Some(header) = rest.first_chunk::<HEADER>() else {
        return Err(Stop::Room { left: rest.len() });
    };
    check_fields(header)?;
    let id = le64(header, 8);
    if let Some(before) = before.filter(|&before| id <= before) {
        return Err(Stop::Id { id, before });
    }
    let length = le64(header, 16);
    let end = (at as u128 + HEADER as u128 + u128::from(length)).next_multiple_of(HEADER as u128);
    if end > file.len() as u128 {
        return Err(Stop::PastEnd { end, length: file.len() });
    }
    // Both are below the file's length, so neither is cut.
    let (length, end) = (length as usize, end as usize);
    Ok(Link { offset: at, end, id, length, kind: header[5], flags: le16(header, 6) })
}

/// Types whose segments are passed and listed, but never handed out and never taken in a batch.
pub fn reserved_type(kind: u8) -> bool {
    matches!(kind, 0x0E..=0xEF)
}

/// The fields that have fixed or limited values, in the order in which they stand.
fn check_fields(header: &[u8; HEADER]) -> Result<(), Stop> {
    let [a, b, c, d, version, kind, ..] = *header;
    if [a, b, c, d] != MAGIC {
        return Err(Stop::Magic { found: [a, b, c, d] });
    }
    if version != 1 {
        return Err(Stop::Version(version));
    }
    if kind == 0 {
        return Err(Stop::Type(kind));
    }
    let flags = le16(header, 6);
    if flags & !FLAGS != 0 {
        return Err(Stop::Flags(flags));
    }
    if header[32] != 0 {
        return Err(Stop::Algorithm(header[32]));
    }
    let zeros = [
        (33..34, "compression"),
        (34..36, "reserved_0"),
        (36..40, "reserved_1"),
        (56..60, "uncompressed_len"),
        (60..64, "alignment_pad"),
    ];
    match zeros.into_iter().find(|(place, _)| header[place.clone()].iter().any(|&byte| byte != 0)) {
        Some((place, field)) => Err(Stop::Reserved { field, byte: place.start }),
        None => Ok(()),
    }
}

/// Little-endian numbers at a place; the caller knows that there is room.
pub fn le16(bytes: &[u8], at: usize) -> u16 {
    u16::from_le_bytes([bytes[at], bytes[at + 1]])
}

pub fn le32(bytes: &[u8], at: usize) -> u32 {
    u32::from(le16(bytes, at)) | u32::from(le16(bytes, at + 2)) << 16
}

pub fn le64(bytes: &[u8], at: usize) -> u64 {
    u64::from(le32(bytes, at)) | u64::from(le32(bytes, at + 4)) << 32
}

/// The name of a segment's type.
pub fn type_name(kind: u8) -> &'static str {
    const NAMES: [&str; 13] = [
        "VEC", "INDEX", "OVERLAY", "JOURNAL", "MANIFEST", "QUANT", "META", "HOT", "SKETCH", "WITNESS", "PROFILE", "CRYPTO",
        "METAIDX",
    ];
    let unnamed = if reserved_type(kind) { "reserved" } else { "EXTENSION" };
    NAMES.get(usize::from(kind).wrapping_sub(1)).copied().unwrap_or(unnamed)
}
