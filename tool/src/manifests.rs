//! Whether a segment of type 5 is a confirmed manifest, and if not, why.

use crate::walk::{content_hash, le16, le32, le64, Link, HEADER};
use std::fmt::{self, Display, Formatter};

pub const ENTRY: usize = 48;
pub const RECORD_HEAD: usize = 8;
pub const ROOT: usize = 4_096;
/// The most entries that a directory has.
pub const ENTRIES: usize = 1_024;

/// Why a segment of type 5 is no confirmed manifest.
#[derive(Clone, Copy, Debug, PartialEq, Eq)]
pub enum Doubt {
    Hash,
    TooMany { before: usize },
    Length { found: usize, wanted: usize },
    Record,
    Entry { index: usize, field: &'static str },
    Fill,
    Root { field: &'static str },
    RootChecksum,
}

impl Display for Doubt {
    fn fmt(&self, out: &mut Formatter<'_>) -> fmt::Result {
        match self {
            Doubt::Hash => write!(out, "its content hash differs"),
            Doubt::TooMany { before } => write!(out, "{before} segments stand before it, a directory has at most {ENTRIES}"),
            Doubt::Length { found, wanted } => {
                write!(out, "its payload has {found} bytes, one of all segments before it has {wanted}")
            }
            Doubt::Record => write!(out, "the head of its directory is wrong"),
            Doubt::Entry { index, field } => write!(out, "entry {index} of its directory has another {field} than the segment"),
            Doubt::Fill => write!(out, "the bytes between directory and root are not zero"),
            Doubt::Root { field } => write!(out, "its root has a wrong {field}"),
            Doubt::RootChecksum => write!(out, "its root's checksum differs"),
        }
    }
}

/// Whether the directory of a manifest is as it was written. The hash in the header speaks of
/// the root too, and a root has one form only; so a damaged one is made anew for the comparison.
/// The manifest need not be confirmed: what stands before it may be damaged.
pub fn directory_whole(file: &[u8], link: &Link) -> bool {
    let Some(length) = link.length.checked_sub(ROOT).filter(|length| *length >= RECORD_HEAD) else {
        return false;
    };
    let contents = &link.payload(file)[..length];
    let count = le32(contents, 2) as usize / ENTRY;
    if count > ENTRIES || payload_length(count) != link.length {
        return false;
    }
    let payload = [contents, &root(link.offset, link.end, link.id, count)].concat();
    link.header(file)[40..56] == content_hash(&payload)
}

/// The root of a manifest: its place, its id and the number of its entries.
pub fn root(offset: usize, end: usize, id: u64, count: usize) -> [u8; ROOT] {
    let mut root = [0; ROOT];
    root[..5].copy_from_slice(b"RVM0\x01");
    root[6..8].copy_from_slice(&(count as u16).to_le_bytes());
    let used = RECORD_HEAD + ENTRY * count;
    for (field, number) in [(8, offset as u64), (16, id), (24, used as u64), (32, end as u64)] {
        root[field..field + 8].copy_from_slice(&number.to_le_bytes());
    }
    let crc = rvf::crc32c(&root[..ROOT - 4]);
    root[ROOT - 4..].copy_from_slice(&crc.to_le_bytes());
    root
}

/// Payload length of a manifest with so many entries.
pub fn payload_length(count: usize) -> usize {
    (RECORD_HEAD + ENTRY * count).next_multiple_of(HEADER) + ROOT
}

/// The first thing that keeps a segment of type 5 from being confirmed; none if it is. It
/// must have exactly one form: all the segments before it, in order, and a root.
pub fn doubt(file: &[u8], link: &Link, before: &[Link]) -> Option<Doubt> {
    judge(file, link, before).err()
}

fn judge(file: &[u8], link: &Link, before: &[Link]) -> Result<(), Doubt> {
    let wanted = payload_length(before.len());
    let used = RECORD_HEAD + ENTRY * before.len();
    hold(link.whole(file), Doubt::Hash)?;
    hold(before.len() <= ENTRIES, Doubt::TooMany { before: before.len() })?;
    hold(link.length == wanted, Doubt::Length { found: link.length, wanted })?;
    let (contents, root) = link.payload(file).split_at(wanted - ROOT);
    let head = le16(contents, 0) == 1 && le32(contents, 2) as usize == ENTRY * before.len() && le16(contents, 6) == 0;
    hold(head, Doubt::Record)?;
    for (index, (entry, link)) in contents[RECORD_HEAD..used].chunks_exact(ENTRY).zip(before).enumerate() {
        judge_entry(entry, file, link).map_err(|field| Doubt::Entry { index, field })?;
    }
    hold(contents[used..].iter().all(|&byte| byte == 0), Doubt::Fill)?;
    judge_root(root, link, before.len()).map_err(|field| Doubt::Root { field })?;
    hold(le32(root, ROOT - 4) == rvf::crc32c(&root[..ROOT - 4]), Doubt::RootChecksum)
}

fn hold<T>(holds: bool, otherwise: T) -> Result<(), T> {
    if holds { Ok(()) } else { Err(otherwise) }
}

/// An entry copies the fields of its segment's header, the hash as it stands there, right
/// or wrong; the state is its own, and a manifest is never retired.
fn judge_entry(entry: &[u8], file: &[u8], link: &Link) -> Result<(), &'static str> {
    let header = link.header(file);
    hold(le64(entry, 0) == link.offset as u64, "offset")?;
    hold(entry[8..16] == header[8..16], "id")?;
    hold(entry[16..24] == header[16..24], "length")?;
    hold(entry[24..40] == header[40..56], "content hash")?;
    hold(entry[40] == link.kind, "type")?;
    hold(entry[41] == 0 || (entry[41] == 1 && link.kind != rvf::MANIFEST), "state")?;
    hold(le16(entry, 42) == link.flags, "flags field")?;
    hold(le32(entry, 44) == 0, "last field")
}

fn judge_root(root: &[u8], link: &Link, count: usize) -> Result<(), &'static str> {
    hold(root[..4] == *b"RVM0", "magic")?;
    hold(le16(root, 4) == 1, "version")?;
    hold(usize::from(le16(root, 6)) == count, "number of entries")?;
    hold(le64(root, 8) == link.offset as u64, "offset")?;
    hold(le64(root, 16) == link.id, "id")?;
    hold(le64(root, 24) == (RECORD_HEAD + ENTRY * count) as u64, "directory length")?;
    hold(le64(root, 32) == link.end as u64, "end")?;
    hold(root[40..ROOT - 4].iter().all(|&byte| byte == 0), "rest, which must be zero")
}
