//! The model of a list of appends, document 01, section "The book of demand 3". It is
//! told each append's arguments other than the file, and whether it was accepted, and
//! says what opening answers after the list. It never looks at the file again.

use crate::reference::append::Bodies;
use crate::reference::manifest::{self, Entry, Opened, LIVE, RETIRED};
use crate::reference::segment::{content_hash, Link, HEADER, MANIFEST};
use crate::reference::{crc, round64};

#[derive(Clone, Debug, PartialEq)]
pub struct Model {
    pub end: u64,
    /// The next id; it may be 2^64.
    pub next_id: u128,
    pub entries: Vec<Entry>,
    /// The manifest's own entry, live.
    pub manifest: Option<Entry>,
    /// Accepted bodies: the offset of each one's payload, and its bytes.
    pub bodies: Vec<(u64, Vec<u8>)>,
}

/// The payload of a manifest at `offset` with these entries, put together by parts.
fn manifest_payload(entries: &[Entry], offset: u64, id: u64) -> Vec<u8> {
    let used = 8 + 48 * entries.len();
    let mut payload = [&[1, 0][..], &(48 * entries.len() as u32).to_le_bytes(), &[0, 0]].concat();
    for entry in entries {
        let mut bytes = [0; 48];
        entry.write(&mut bytes);
        payload.extend_from_slice(&bytes);
    }
    payload.resize(round64(used), 0);
    let end = offset + (HEADER + round64(used) + 4_096) as u64;
    let mut root = b"RVM0\x01\x00".to_vec();
    root.extend_from_slice(&(entries.len() as u16).to_le_bytes());
    for number in [offset, id, used as u64, end] {
        root.extend_from_slice(&number.to_le_bytes());
    }
    root.resize(4_092, 0);
    let crc = crc::crc32c(&root);
    root.extend_from_slice(&crc.to_le_bytes());
    [payload, root].concat()
}

impl Model {
    pub fn empty() -> Model {
        Model { end: 0, next_id: 0, entries: Vec::new(), manifest: None, bodies: Vec::new() }
    }

    /// The model that a list starts with; none for a file that is neither empty nor
    /// opens, where every append refuses.
    pub fn of(file: &[u8]) -> Option<Model> {
        if file.is_empty() {
            return Some(Model::empty());
        }
        let opened = manifest::open_by_walk(file).ok()?;
        let directory = manifest::directory(file, &opened);
        let header = &file[opened.offset..opened.offset + HEADER];
        let own = Entry {
            offset: opened.offset as u64,
            id: opened.id,
            length: (opened.end - opened.offset - HEADER) as u64,
            hash: header[40..56].try_into().unwrap(),
            kind: MANIFEST,
            state: LIVE,
            flags: u16::from_le_bytes([header[6], header[7]]),
        };
        Some(Model {
            end: opened.end as u64,
            next_id: opened.id as u128 + 1,
            entries: directory.chunks_exact(manifest::ENTRY).map(Entry::read).collect(),
            manifest: Some(own),
            bodies: Vec::new(),
        })
    }

    /// Offset and id of a new segment with this payload; end and next id go up.
    fn take(&mut self, kind: u8, flags: u16, payload: &[u8]) -> Entry {
        let entry = Entry {
            offset: self.end,
            id: self.next_id as u64,
            length: payload.len() as u64,
            hash: content_hash(payload),
            kind,
            state: LIVE,
            flags,
        };
        self.end += (HEADER + round64(payload.len())) as u64;
        self.next_id += 1;
        entry
    }

    /// An accepted append.
    pub fn accepted(&mut self, batch: &[u8], retire: &[u64]) {
        for entry in &mut self.entries {
            if retire.contains(&entry.id) {
                entry.state = RETIRED;
            }
        }
        self.entries.extend(self.manifest.take());
        for body in Bodies::of(batch).expect("an accepted batch keeps the form").iter() {
            let entry = self.take(body.kind, body.flags, body.bytes);
            self.bodies.push((entry.offset + HEADER as u64, body.bytes.to_vec()));
            self.entries.push(entry);
        }
        let payload = manifest_payload(&self.entries, self.end, self.next_id as u64);
        self.manifest = Some(self.take(MANIFEST, 0, &payload));
    }

    /// What the last accepted append answered: end, id and count.
    pub fn answer(&self) -> [u64; 3] {
        [self.end, self.manifest.map_or(0, |entry| entry.id), self.entries.len() as u64]
    }

    /// What opening answers on a file of `n` bytes after the list; none for refusal 2.
    pub fn opened(&self, n: usize) -> Option<Opened> {
        let own = self.manifest?;
        let tried = n / 64 - own.offset as usize / 64;
        Some(Opened { offset: own.offset as usize, end: self.end as usize, id: own.id, count: self.entries.len(), tried })
    }

    /// True if the file's directory and links are those of the model.
    pub fn fits(&self, file: &[u8]) -> bool {
        let Some(opened) = self.opened(file.len()) else {
            return manifest::open(file) == Err(2);
        };
        let directory = manifest::directory(file, &opened);
        let links: Vec<Link> = crate::reference::segment::chain(file).take(self.entries.len() + 1).collect();
        manifest::open(file) == Ok(opened)
            && directory.chunks_exact(manifest::ENTRY).map(Entry::read).eq(self.entries.iter().copied())
            && links.iter().map(|link| link.id).eq(self.entries.iter().chain(&self.manifest).map(|entry| entry.id))
            && self.bodies.iter().all(|(at, bytes)| file[*at as usize..].starts_with(bytes))
    }
}
