//! A batch cut short told from batches that are lost.
//!
//! A cut takes at least the last byte of a batch, so it never leaves a complete manifest of
//! its own behind the end of the file's. Where one stands there all the same, damage before
//! it has ended the chain or unconfirmed it: what the file answers now may be old.

use crate::{crc32c, open, Refusal, BATCH_LIMIT, MANIFEST};
use std::collections::BTreeMap;

const HEADER: usize = 64;
const ROOT: usize = 4_096;
/// A batch has at most so many bodies; each becomes a segment with a header and up to 63
/// bytes of padding.
const BODIES: usize = 16;
/// A manifest of 1,024 entries with its header.
const LONGEST_MANIFEST: usize = 53_376;
/// What no batch with its manifest is longer than: 16 bytes of a batch and 16 for each body
/// do not reach the file.
const LONGEST_TAIL: usize = BATCH_LIMIT - 16 - 16 * BODIES + BODIES * (HEADER + 63) + LONGEST_MANIFEST;

/// Batches that lie in a file and are no part of the store.
#[derive(Clone, Debug, PartialEq, Eq)]
pub struct Lost {
    /// Where the file's manifest ends; 0 where it has none.
    pub end: u64,
    /// How many bytes lie behind.
    pub bytes: u64,
    /// The manifests there, by rising offsets. None where the tail's length alone tells.
    pub manifests: Vec<LostManifest>,
}

impl Lost {
    pub fn newest(&self) -> Option<&LostManifest> {
        self.manifests.last()
    }
}

/// A manifest that stands behind the end of the file's.
#[derive(Clone, Copy, Debug, PartialEq, Eq)]
pub struct LostManifest {
    pub offset: u64,
    pub end: u64,
    pub id: u64,
    /// Whether its root was found; else its header was.
    pub root: bool,
}

/// Whether batches are lost behind the end of the file's manifest, or in a file that has none.
/// None where nothing lies behind, and for every cut of the last batch. Refuses 1.
///
/// Two signs tell, beside a tail that is longer than any batch: a root with a right checksum
/// that names the place where it stands, and a whole segment of type 5 that headers from the
/// end on lead to. A segment whose hash is right is a body as it was written: a root in it is
/// no sign, unless it says that this very segment is the manifest.
pub fn lost_behind(file: &[u8]) -> Result<Option<Lost>, Refusal> {
    let end = match open(file) {
        Ok(manifest) => manifest.end as usize,
        Err(refused) if refused.refusal == Refusal::NoManifest => 0,
        Err(refused) => return Err(refused.refusal),
    };
    let segments = segments(file, end);
    let of_segment = |segment: &Segment| {
        let (offset, end) = (segment.start as u64, segment.end as u64);
        LostManifest { offset, end, id: le64(file, segment.start + 8), root: false }
    };
    let by_header = segments.iter().filter(|segment| segment.kind == MANIFEST).map(of_segment);
    // Where both signs are found, the root's word counts.
    let both = by_header.chain(roots(file, end, &segments)).map(|manifest| (manifest.offset, manifest));
    let manifests: Vec<LostManifest> = both.collect::<BTreeMap<_, _>>().into_values().collect();
    let bytes = file.len() - end;
    let lost = !manifests.is_empty() || bytes > LONGEST_TAIL;
    Ok(lost.then_some(Lost { end: end as u64, bytes: bytes as u64, manifests }))
}

/// A segment that a header with the magic leads to.
struct Segment {
    start: usize,
    end: usize,
    kind: u8,
    whole: bool,
}

/// The segments wholly inside the file, from a place on, by nothing but magic and length.
fn segments(file: &[u8], from: usize) -> Vec<Segment> {
    let mut segments = Vec::new();
    let mut start = from;
    while let Some(header) = file.get(start..start + HEADER).filter(|header| header.starts_with(b"RVFS")) {
        let length = le64(header, 16);
        let end = (start as u128 + HEADER as u128 + u128::from(length)).next_multiple_of(HEADER as u128);
        if end > file.len() as u128 {
            break;
        }
        let payload = &file[start + HEADER..][..length as usize];
        let whole = header[40..44] == crc32c(payload).to_le_bytes();
        segments.push(Segment { start, end: end as usize, kind: header[5], whole });
        start = end as usize;
    }
    segments
}

/// The manifests, from a place on, whose root is right and stands where it says.
fn roots(file: &[u8], from: usize, segments: &[Segment]) -> Vec<LostManifest> {
    let mut bodies = segments.iter().filter(|segment| segment.whole && segment.kind != MANIFEST).peekable();
    let mut found = Vec::new();
    for place in (from..file.len()).step_by(HEADER) {
        while bodies.next_if(|body| body.end <= place).is_some() {}
        let inside = bodies.peek().filter(|body| body.start <= place);
        let counts = |root: &LostManifest| inside.is_none_or(|body| body.start as u64 == root.offset);
        found.extend(root_at(file, from, place).filter(counts));
    }
    found
}

fn root_at(file: &[u8], from: usize, place: usize) -> Option<LostManifest> {
    let root = file.get(place..place + ROOT).filter(|root| root.starts_with(b"RVM0"))?;
    let (offset, id, record, end) = (le64(root, 8), le64(root, 16), le64(root, 24), le64(root, 32));
    let room = record.checked_next_multiple_of(HEADER as u64)?.checked_add(HEADER as u64)?;
    let stands =
        offset.checked_add(room) == Some(place as u64) && end == (place + ROOT) as u64 && offset >= from as u64;
    let right = stands && root[ROOT - 4..] == crc32c(&root[..ROOT - 4]).to_le_bytes();
    right.then_some(LostManifest { offset, end, id, root: true })
}

/// The little-endian number at a place; the caller knows that there is room.
fn le64(bytes: &[u8], at: usize) -> u64 {
    bytes[at..at + 8].iter().rev().fold(0, |number, &byte| number << 8 | u64::from(byte))
}
