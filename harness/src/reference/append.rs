//! Appending, document 01, section "The batch sheet and appending".
//!
//! The order of the refusals is the section's: room for the file, file limit,
//! manifest, batch, VEC bodies, retirement, entries, ids, new end, room for it. Only
//! when all are behind is a byte written.

use super::manifest::{self, Entry, Opened, ENTRY, LIVE, RECORD_HEAD, RETIRED};
use super::refusal::{BATCH, DIRECTORY_FULL, FILE_TOO_LONG, IDS_USED_UP, NO_ROOM, RETIRE};
use super::segment::{self, HEADER, MANIFEST, VEC};
use super::{all_zero, le16, le32, limits, round64, store, vecseg};

/// Bytes of the batch's head and of one of its lines.
const HEAD: usize = 16;
const LINE: usize = 16;

/// A body of a batch, checked.
#[derive(Clone, Copy)]
pub struct Body<'a> {
    pub kind: u8,
    pub flags: u16,
    pub bytes: &'a [u8],
}

/// The bodies of a batch that keeps the batch's form.
pub struct Bodies<'a> {
    batch: &'a [u8],
    pub count: usize,
}

impl<'a> Bodies<'a> {
    /// The whole form, before any body is looked into.
    pub fn of(batch: &'a [u8]) -> Result<Bodies<'a>, u32> {
        if batch.len() < limits::BATCH_MIN || batch.len() > limits::BATCH_MAX {
            return Err(BATCH);
        }
        let count = le32(batch, 0) as usize;
        if count > limits::BODIES || !all_zero(&batch[4..HEAD]) {
            return Err(BATCH);
        }
        let mut at = HEAD + LINE * count;
        if at > batch.len() {
            return Err(BATCH);
        }
        for line in batch[HEAD..at].chunks_exact(LINE) {
            let kind = line[0];
            let form = segment::type_allowed(kind)
                && !segment::type_reserved(kind)
                && kind != MANIFEST
                && line[1] == 0
                && segment::flags_allowed(le16(line, 2))
                && le32(line, 4) as usize == at
                && le32(line, 12) == 0;
            let length = le32(line, 8) as usize;
            if !form || length > batch.len() - at {
                return Err(BATCH);
            }
            at += length;
        }
        if at == batch.len() { Ok(Bodies { batch, count }) } else { Err(BATCH) }
    }

    pub fn iter(&self) -> impl Iterator<Item = Body<'a>> + '_ {
        self.batch[HEAD..HEAD + LINE * self.count].chunks_exact(LINE).map(|line| Body {
            kind: line[0],
            flags: le16(line, 2),
            bytes: &self.batch[le32(line, 4) as usize..][..le32(line, 8) as usize],
        })
    }
}

/// The entries to retire, by index: each id is in the directory, live, no manifest,
/// and only once in the list.
fn retirement(directory: &[u8], retire: &[u64]) -> Result<Vec<usize>, u32> {
    let mut named = Vec::with_capacity(retire.len().min(limits::ENTRIES));
    let mut seen = [false; limits::ENTRIES];
    for &id in retire {
        let index = store::index_of(directory, id).ok_or(RETIRE)?;
        let entry = &directory[ENTRY * index..][..ENTRY];
        if entry[40] == MANIFEST || entry[41] != LIVE || seen[index] {
            return Err(RETIRE);
        }
        seen[index] = true;
        named.push(index);
    }
    Ok(named)
}

/// Appends a batch to the file that is the buffer's first `n` bytes. Answers the new
/// end, the new manifest's id and its number of entries.
pub fn append(
    buffer: &mut [u8],
    n: u64,
    batch: &[u8],
    retire: &[u64],
    timestamp: u64,
) -> Result<(usize, u64, usize), u32> {
    if n > buffer.len() as u64 {
        return Err(NO_ROOM);
    }
    if n > limits::FILE as u64 {
        return Err(FILE_TOO_LONG);
    }
    let file = &buffer[..n as usize];
    let opened = if n == 0 { None } else { Some(manifest::open(file)?) };
    let bodies = Bodies::of(batch)?;
    for body in bodies.iter().filter(|body| body.kind == VEC) {
        vecseg::check(body.bytes)?;
    }
    let directory = opened.as_ref().map_or(&[][..], |opened| manifest::directory(file, opened));
    let named = retirement(directory, retire)?;
    let old = opened.map_or(0, |opened| opened.count + 1);
    let count = old + bodies.count;
    if count > limits::ENTRIES {
        return Err(DIRECTORY_FULL);
    }
    // The manifest's id is the last one given out, after those of the bodies.
    let first_id = opened.map_or(Some(0), |opened| opened.id.checked_add(1));
    let id = first_id.and_then(|first| first.checked_add(bodies.count as u64)).ok_or(IDS_USED_UP)?;
    let start = opened.map_or(0, |opened| opened.end);
    let manifest_at = bodies.iter().fold(start, |at, body| at + HEADER + round64(body.bytes.len()));
    let end = manifest_at + HEADER + manifest::payload_length(count);
    if end > limits::FILE {
        return Err(FILE_TOO_LONG);
    }
    if end > buffer.len() {
        return Err(NO_ROOM);
    }
    let (before, room) = buffer[..end].split_at_mut(start);
    let (segments, room) = room.split_at_mut(manifest_at - start);
    let entries = &mut room[HEADER + RECORD_HEAD..][..ENTRY * count];
    copy_directory(entries, before, opened.as_ref(), &named);
    write_bodies(segments, start, id - bodies.count as u64, &bodies, &mut entries[ENTRY * old..], timestamp);
    manifest::seal(room, manifest_at, id, count, timestamp);
    Ok((end, id, count))
}

/// The old directory with the named entries retired, then the old manifest, live.
fn copy_directory(entries: &mut [u8], file: &[u8], opened: Option<&Opened>, named: &[usize]) {
    let Some(opened) = opened else {
        return;
    };
    let directory = manifest::directory(file, opened);
    entries[..directory.len()].copy_from_slice(directory);
    for index in named {
        entries[ENTRY * index + 41] = RETIRED;
    }
    let header = &file[opened.offset..opened.offset + HEADER];
    let manifest = Entry {
        offset: opened.offset as u64,
        id: opened.id,
        length: manifest::payload_length(opened.count) as u64,
        hash: header[40..56].try_into().unwrap(),
        kind: MANIFEST,
        state: LIVE,
        flags: le16(header, 6),
    };
    manifest.write(&mut entries[directory.len()..][..ENTRY]);
}

/// The bodies as segments at the front of `room` (which begins at `start` in the
/// file), and their entries.
fn write_bodies(room: &mut [u8], start: usize, first_id: u64, bodies: &Bodies, entries: &mut [u8], timestamp: u64) {
    let mut at = 0;
    for ((body, place), id) in bodies.iter().zip(entries.chunks_exact_mut(ENTRY)).zip(first_id..=u64::MAX) {
        let length = body.bytes.len();
        let segment = &mut room[at..at + HEADER + round64(length)];
        segment[HEADER..HEADER + length].copy_from_slice(body.bytes);
        segment::seal(segment, body.kind, body.flags, id, length, timestamp);
        let entry = Entry {
            offset: (start + at) as u64,
            id,
            length: length as u64,
            hash: segment[40..56].try_into().unwrap(),
            kind: body.kind,
            state: LIVE,
            flags: body.flags,
        };
        entry.write(place);
        at += segment.len();
    }
}

#[cfg(test)]
mod tests {
    use super::*;
    use crate::gen::batch_of;

    /// Document 01, section "Worked numbers".
    #[test]
    fn worked_numbers() {
        let mut buffer = vec![0xA5; 9_000];
        assert_eq!(append(&mut buffer, 0, &batch_of(&[]), &[], 1), Ok((4_224, 0, 0)));
        assert_eq!(buffer[4_224], 0xA5);
        assert_eq!(append(&mut buffer, 0, &batch_of(&[(7, 0, &[1; 100])]), &[], 1), Ok((4_416, 1, 1)));
        assert_eq!(manifest::open(&buffer[..4_416]).map(|opened| opened.offset), Ok(192));
        assert_eq!(append(&mut buffer, 4_416, &batch_of(&[]), &[], 1), Ok((8_704, 2, 2)));
        assert_eq!(buffer[8_704], 0xA5);
    }

    #[test]
    fn a_directory_of_1024_entries_is_full() {
        let mut buffer = vec![0; limits::FILE];
        let bodies = vec![(7u8, 0u16, &b""[..]); 16];
        let mut n = append(&mut buffer, 0, &batch_of(&bodies), &[], 1).unwrap().0;
        // Sixteen bodies and a manifest a call: 16 + 17 * 59 = 1,019 entries.
        for _ in 0..59 {
            n = append(&mut buffer, n as u64, &batch_of(&bodies), &[], 1).unwrap().0;
        }
        let before = buffer.clone();
        assert_eq!(append(&mut buffer, n as u64, &batch_of(&bodies[..5]), &[], 1), Err(DIRECTORY_FULL));
        assert_eq!(before, buffer);
        let (end, id, count) = append(&mut buffer, n as u64, &batch_of(&bodies[..4]), &[], 1).unwrap();
        assert_eq!((id, count), (1_024, 1_024));
        assert_eq!(manifest::open(&buffer[..end]).map(|opened| end - opened.offset), Ok(53_376));
        assert_eq!(append(&mut buffer, end as u64, &batch_of(&[]), &[], 1), Err(DIRECTORY_FULL));
    }
}
