//! How much room a store has left, and how much a compaction brings back.

use crate::json::Json;
use crate::manifests::{self, payload_length};
use crate::quote::quoted;
use crate::walk::HEADER;
use rvf::{Entry, Manifest, Refusal, FILE_LIMIT};
use std::path::Path;

const ENTRIES: u64 = manifests::ENTRIES as u64;

/// What is left of both limits.
#[derive(Clone, Copy, Debug, PartialEq, Eq)]
pub struct Room {
    pub entries: u64,
    pub bytes: u64,
}

impl Room {
    /// The room of a file with so many entries and bytes, where four fifths of a limit are used.
    pub fn scarce(entries: u64, bytes: u64) -> Option<Room> {
        let limit = FILE_LIMIT as u64;
        let scarce = 5 * entries >= 4 * ENTRIES || 5 * bytes >= 4 * limit;
        scarce.then_some(Room { entries: ENTRIES.saturating_sub(entries), bytes: limit.saturating_sub(bytes) })
    }

    pub fn left(&self) -> String {
        let Room { entries, bytes } = self;
        format!("{entries} of {ENTRIES} entries and {bytes} of {FILE_LIMIT} bytes are left")
    }

    /// The line for standard error, with what can be done about it.
    pub fn words(&self, path: &Path, next: &str) -> String {
        format!("rvf: {}: {}; {next}\n", path.display(), self.left())
    }

    pub fn shown(&self) -> String {
        format!("{} bytes and {}", self.bytes, entries(self.entries))
    }

    pub fn json(&self) -> Json {
        Json::Object(vec![("entries", Json::Number(self.entries)), ("bytes", Json::Number(self.bytes))])
    }
}

/// A number of entries in words.
pub fn entries(count: u64) -> String {
    format!("{count} {}", if count == 1 { "entry" } else { "entries" })
}

/// Whether a compaction copies the segment of an entry.
pub fn kept(entry: &Entry) -> bool {
    !entry.retired && entry.kind != rvf::MANIFEST
}

/// Bytes of a segment with its header and padding.
pub fn segment(length: usize) -> usize {
    (HEADER + length).next_multiple_of(HEADER)
}

/// The room that a compaction of a file brings back, by its directory alone: whether the
/// segments are whole is not looked at.
pub fn back(manifest: &Manifest, entries: &[Entry]) -> Room {
    let kept: Vec<usize> = entries.iter().filter(|entry| kept(entry)).map(|entry| entry.length as usize).collect();
    let segments: usize = kept.iter().map(|length| segment(*length)).sum();
    let end = segments + segment(payload_length(kept.len()));
    Room { entries: (entries.len() - kept.len()) as u64, bytes: manifest.end - end as u64 }
}

/// What to do where a store is full, or nearly so. Retiring alone frees nothing: the bytes and
/// the entry stay until the file is compacted.
pub fn frees(path: &Path, file: &[u8]) -> String {
    let directory = || -> Result<Room, Refusal> { Ok(back(&rvf::open(file)?, &rvf::entries(file)?)) };
    advice(path, directory().unwrap_or(Room { entries: 0, bytes: 0 }))
}

/// The same where it is known how much a compaction brings back.
pub fn advice(path: &Path, back: Room) -> String {
    let file = quoted(path);
    match back {
        Room { entries: 0, bytes: 0 } => format!(
            "compacting brings nothing back: retire what is not needed ('rvf retire {file} SEGMENT-ID') and compact \
             then, or start a new file with --create"
        ),
        Room { .. } => format!("compact it: 'rvf compact {file}' brings {} back", back.shown()),
    }
}

#[cfg(test)]
mod tests {
    use super::*;

    #[test]
    fn room_is_scarce_from_four_fifths_on() {
        assert_eq!(Room::scarce(819, 13_421_772), None);
        assert_eq!(Room::scarce(820, 0), Some(Room { entries: 204, bytes: 16_777_216 }));
        assert_eq!(Room::scarce(0, 13_421_773), Some(Room { entries: 1_024, bytes: 3_355_443 }));
        assert_eq!(Room::scarce(1_024, 16_777_216), Some(Room { entries: 0, bytes: 0 }));
    }
}
