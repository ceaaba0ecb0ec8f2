//! Reading by id, document 01, section "Vector blocks and id maps" (its last two
//! paragraphs): the payload, vector and component calls.

use super::manifest::{self, Entry, Opened, ENTRY, LIVE};
use super::refusal::{CONTENT_HASH, NOT_LIVE, NO_VECTOR, RESERVED_TYPE};
use super::segment::{self, HEADER, VEC};
use super::{le64, vecseg};

/// The index of an id in a directory; the ids rise, as the chain's do.
pub fn index_of(directory: &[u8], id: u64) -> Option<usize> {
    let (mut low, mut high) = (0, directory.len() / ENTRY);
    while low < high {
        let middle = (low + high) / 2;
        let found = le64(directory, ENTRY * middle + 8);
        if found == id {
            return Some(middle);
        }
        if found < id {
            low = middle + 1;
        } else {
            high = middle;
        }
    }
    None
}

/// The payload of a live segment, by its id: where it begins and its length. A broken
/// layout inside does not matter here, a wrong hash does.
pub fn payload(file: &[u8], id: u64) -> Result<(usize, usize), u32> {
    let opened = manifest::open(file)?;
    let directory = manifest::directory(file, &opened);
    let index = index_of(directory, id).ok_or(NOT_LIVE)?;
    let entry = Entry::read(&directory[ENTRY * index..][..ENTRY]);
    if entry.state != LIVE {
        return Err(NOT_LIVE);
    }
    if segment::type_reserved(entry.kind) {
        return Err(RESERVED_TYPE);
    }
    if !segment::hash_equal(&entry.hash, entry.payload(file)) {
        return Err(CONTENT_HASH);
    }
    Ok((entry.offset as usize + HEADER, entry.length as usize))
}

/// Goes through the live VEC segments from the last to the first. Each is checked
/// whole; the first bad one refuses, the first that holds the id answers.
fn search<'a>(file: &'a [u8], opened: &Opened, id: u64) -> Result<(&'a [u8], vecseg::Place), u32> {
    for bytes in manifest::directory(file, opened).chunks_exact(ENTRY).rev() {
        let entry = Entry::read(bytes);
        if entry.kind != VEC || entry.state != LIVE {
            continue;
        }
        let payload = entry.payload(file);
        if !segment::hash_equal(&entry.hash, payload) {
            return Err(CONTENT_HASH);
        }
        vecseg::check(payload)?;
        if let Some(place) = vecseg::find(payload, id) {
            return Ok((payload, place));
        }
    }
    Err(NO_VECTOR)
}

/// A vector by its id: writes its bytes to the front of the buffer and answers dim,
/// dtype and the length written. The newest copy decides, also for a short buffer.
pub fn vector(file: &[u8], id: u64, buffer: &mut [u8]) -> Result<(usize, u8, usize), u32> {
    let opened = manifest::open(file)?;
    let (payload, place) = search(file, &opened, id)?;
    let length = vecseg::vector(payload, place, buffer)?;
    Ok((place.line.dim, place.line.dtype, length))
}

/// A component by vector id and index: dtype and bits. The index is looked at after
/// the search, so a bad segment wins over a huge index.
pub fn component(file: &[u8], id: u64, index: u64) -> Result<(u8, u32), u32> {
    let opened = manifest::open(file)?;
    let (payload, place) = search(file, &opened, id)?;
    if index >= place.line.dim as u64 {
        return Err(NO_VECTOR);
    }
    Ok((place.line.dtype, vecseg::component(payload, place, index as usize)))
}

#[cfg(test)]
mod tests {
    use super::*;
    use crate::reference::append::append;
    use crate::gen::batch_of;

    fn payload_of(ids: &[u64], fill: u8) -> Vec<u8> {
        let mut buffer = vec![0; 1_000];
        let columns: Vec<u8> = (0..2 * ids.len()).map(|i| fill + i as u8).collect();
        let length = vecseg::write(&mut buffer, ids, &columns, 2, 4, 0, 1, 0).unwrap();
        buffer.truncate(length);
        buffer
    }

    #[test]
    fn the_newest_copy_answers_and_a_bad_newer_one_refuses() {
        let (old, new) = (payload_of(&[1, 2, 3], 10), payload_of(&[2, 9], 100));
        let batch = batch_of(&[(VEC, 0, &old), (VEC, 8, &new)]);
        let mut file = vec![0; 8_000];
        let (end, ..) = append(&mut file, 0, &batch, &[], 5).unwrap();
        file.truncate(end);
        let mut buffer = [0xA5; 3];
        assert_eq!(vector(&file, 2, &mut buffer), Ok((2, 4, 2)));
        assert_eq!(buffer, [100, 102, 0xA5]);
        assert_eq!(vector(&file, 1, &mut buffer), Ok((2, 4, 2)));
        assert_eq!(buffer, [10, 13, 0xA5]);
        assert_eq!(component(&file, 9, 1), Ok((4, 103)));
        assert_eq!(component(&file, 9, 2), Err(NO_VECTOR));
        assert_eq!(vector(&file, 4, &mut buffer), Err(NO_VECTOR));
        assert_eq!(vector(&file, 1, &mut buffer[..1]), Err(9));
        assert_eq!(payload(&file, 0), Ok((64, old.len())));
        assert_eq!(payload(&file, 2), Err(NOT_LIVE));
        // Damage in the newer segment: nothing is answered from the older one.
        file[64 + round_up(old.len()) + 64] ^= 1;
        assert_eq!(vector(&file, 1, &mut buffer), Err(CONTENT_HASH));
        assert_eq!(component(&file, 1, u64::MAX), Err(CONTENT_HASH));
        assert_eq!(payload(&file, 1), Err(CONTENT_HASH));
        assert_eq!(payload(&file, 0), Ok((64, old.len())));
    }

    fn round_up(n: usize) -> usize {
        crate::reference::round64(n)
    }
}
