//! What is whole in a damaged file. The newest directory that is whole names every segment
//! before it, with its hash; behind it there are headers to go by, and the directories of
//! manifests that are damaged themselves.

use crate::check::broken;
use crate::manifests::{directory_whole, ENTRIES, ENTRY, RECORD_HEAD};
use crate::walk::{content_hash, le16, le32, le64, segment_at, Link, HEADER};
use rvf::{LostManifest, Refusal, MANIFEST};
use std::collections::HashSet;

/// A segment that a directory names or a header tells of.
#[derive(Clone, Copy, Debug, PartialEq, Eq)]
pub struct Piece {
    pub offset: usize,
    pub id: u64,
    pub length: usize,
    pub kind: u8,
    pub flags: u16,
    pub retired: bool,
    /// As the header has it; a directory has none.
    pub time: u64,
    pub hash: [u8; 16],
}

impl Piece {
    fn end(&self) -> usize {
        (self.offset + HEADER + self.length).next_multiple_of(HEADER)
    }

    pub fn payload<'a>(&self, file: &'a [u8]) -> &'a [u8] {
        &file[self.offset + HEADER..][..self.length]
    }

    fn of_link(file: &[u8], link: &Link) -> Piece {
        let mut hash = [0; 16];
        hash.copy_from_slice(&link.header(file)[40..56]);
        let Link { offset, id, length, kind, flags, .. } = *link;
        Piece { offset, id, length, kind, flags, retired: false, time: link.time(file), hash }
    }

    /// The segment that an entry names; none where it would not lie in the file.
    fn of_entry(file: &[u8], entry: &[u8]) -> Option<Piece> {
        let (offset, length) = (usize::try_from(le64(entry, 0)).ok()?, usize::try_from(le64(entry, 16)).ok()?);
        let end = offset.checked_add(HEADER)?.checked_add(length)?;
        let header = file.get(offset..end).filter(|_| offset % HEADER == 0)?;
        let mut hash = [0; 16];
        hash.copy_from_slice(&entry[24..40]);
        let (id, time) = (le64(entry, 8), le64(header, 24));
        Some(Piece {
            offset,
            id,
            length,
            kind: entry[40],
            flags: le16(entry, 42),
            retired: entry[41] == 1,
            time,
            hash,
        })
    }
}

/// What was found in a file, by rising offsets and ids.
#[derive(Debug, Default)]
pub struct Found {
    pub kept: Vec<Piece>,
    /// Segments that are not whole, and why.
    pub lost: Vec<(Piece, String)>,
    /// The manifest whose states hold, and where it ends.
    pub states: Option<(u64, usize)>,
    /// Manifests behind it whose directory is not whole: what they retired is not known.
    pub unread: Vec<u64>,
    /// Manifests that are not copied.
    pub manifests: usize,
    pub highest_id: Option<u64>,
    /// The offsets of all that was met.
    met: HashSet<usize>,
}

/// Looks for what is whole. `lost` are the manifests behind the end of the file's.
pub fn find(file: &[u8], lost: &[LostManifest]) -> Found {
    let mut found = Found::default();
    let own = rvf::open(file).ok();
    let own = own.map(|own| LostManifest { offset: own.offset, end: own.end, id: own.id, root: true });
    let newest_first = lost.iter().rev().copied().chain(own);
    let from = match newest_first.map(as_link).find(|link| directory_whole(file, link)) {
        Some(manifest) => {
            entries(file, manifest.offset).into_iter().for_each(|piece| found.judge(file, piece));
            found.judge(file, Piece::of_link(file, &manifest));
            found.states = Some((manifest.id, manifest.end));
            manifest.end
        }
        None => 0,
    };
    found.walk(file, from);
    // Behind a break: what damaged manifests name, if the header there says the same.
    for manifest in lost.iter().filter(|manifest| manifest.offset as usize >= from) {
        found.unread.push(manifest.id);
        for piece in entries(file, manifest.offset as usize).into_iter().filter(|piece| piece.offset >= from) {
            let said = segment_at(file, piece.offset, None).map(|link| Piece::of_link(file, &link));
            if said.is_ok_and(|said| Piece { retired: piece.retired, ..said } == piece) {
                found.walk(file, piece.offset);
            }
        }
        found.walk(file, manifest.offset as usize);
    }
    found.settle();
    found
}

/// A manifest as its root or its header has it: one of them may be damaged, but for the hash.
fn as_link(manifest: LostManifest) -> Link {
    let (offset, end) = (manifest.offset as usize, manifest.end as usize);
    Link { offset, end, id: manifest.id, length: end - offset - HEADER, kind: MANIFEST, flags: 0 }
}

/// The segments that the directory of the manifest at a place names, as far as they can be read.
fn entries(file: &[u8], manifest: usize) -> Vec<Piece> {
    let record = &file[(manifest + HEADER).min(file.len())..];
    if record.len() < RECORD_HEAD || le16(record, 0) != 1 {
        return Vec::new();
    }
    let count = (le32(record, 2) as usize / ENTRY).min(ENTRIES);
    let entries = record[RECORD_HEAD..].chunks_exact(ENTRY).take(count);
    entries.filter_map(|entry| Piece::of_entry(file, entry)).collect()
}

impl Found {
    /// Goes from header to header, as long as there is one that was not met before.
    fn walk(&mut self, file: &[u8], from: usize) {
        let mut at = from;
        while let (Ok(link), false) = (segment_at(file, at, None), self.met.contains(&at)) {
            self.judge(file, Piece::of_link(file, &link));
            at = link.end;
        }
    }

    /// Whole are bytes whose hash is the one in the header or in the directory.
    fn judge(&mut self, file: &[u8], piece: Piece) {
        self.met.insert(piece.offset);
        if content_hash(piece.payload(file)) == piece.hash {
            self.kept.push(piece);
        } else {
            self.lost.push((piece, broken(Refusal::ContentHash).to_string()));
        }
    }

    /// Sorts what was found, and takes out manifests, what overlaps and ids that do not rise.
    fn settle(&mut self) {
        let all = || self.kept.iter().chain(self.lost.iter().map(|(piece, _)| piece));
        self.highest_id = all().map(|piece| piece.id).max();
        self.manifests = all().filter(|piece| piece.kind == MANIFEST).count();
        self.lost.retain(|(piece, _)| piece.kind != MANIFEST);
        self.kept.retain(|piece| piece.kind != MANIFEST);
        self.kept.sort_by_key(|piece| piece.offset);
        let mut last: Option<Piece> = None;
        let (kept, lost) = (std::mem::take(&mut self.kept), &mut self.lost);
        for piece in kept {
            match last {
                Some(last) if piece.offset < last.end() => {
                    lost.push((piece, format!("it overlaps segment {}", last.id)))
                }
                Some(last) if piece.id <= last.id => lost.push((piece, format!("its id is not above {}", last.id))),
                _ => {
                    last = Some(piece);
                    self.kept.push(piece);
                }
            }
        }
        lost.sort_by_key(|(piece, _)| piece.offset);
    }
}
