//! Getting room back, document 02, §11: a fresh file of the live segments of a file, with
//! one manifest behind them. It is also the speed baseline: a checksum over each payload, a
//! copy of each segment, and no more.

use super::manifest::{self, Entry, Opened, ENTRY, LIVE, RECORD_HEAD};
use super::refusal::{CONTENT_HASH, NO_ROOM};
use super::segment::{self, HEADER, MANIFEST};
use super::{le64, round64};

/// The segments to be copied: live ones except those of type 0x05, in directory order.
fn kept<'a>(file: &'a [u8], opened: &Opened) -> impl Iterator<Item = Entry> + 'a {
    let entries = manifest::directory(file, opened).chunks_exact(ENTRY).map(Entry::read);
    entries.filter(|entry| entry.state == LIVE && entry.kind != MANIFEST)
}

/// Bytes of a segment with its header and padding.
fn size(entry: &Entry) -> usize {
    HEADER + round64(entry.length as usize)
}

/// Writes the fresh file to the front of the buffer. Answers its end, the manifest's id and its
/// number of entries. All hashes come before the room.
pub fn compact(file: &[u8], buffer: &mut [u8]) -> Result<(usize, u64, usize), u32> {
    let opened = manifest::open(file)?;
    let (mut manifest_at, mut count) = (0, 0);
    for entry in kept(file, &opened) {
        if !segment::hash_equal(&entry.hash, entry.payload(file)) {
            return Err(CONTENT_HASH);
        }
        manifest_at += size(&entry);
        count += 1;
    }
    let end = manifest_at + HEADER + manifest::payload_length(count);
    if end > buffer.len() {
        return Err(NO_ROOM);
    }
    let (segments, room) = buffer[..end].split_at_mut(manifest_at);
    let entries = &mut room[HEADER + RECORD_HEAD..][..ENTRY * count];
    let mut at = 0;
    for (entry, place) in kept(file, &opened).zip(entries.chunks_exact_mut(ENTRY)) {
        // The header unchanged, the payload, and the padding, which is zero in a link.
        let size = size(&entry);
        segments[at..at + size].copy_from_slice(&file[entry.offset as usize..][..size]);
        Entry { offset: at as u64, ..entry }.write(place);
        at += size;
    }
    manifest::seal(room, manifest_at, opened.id, count, le64(file, opened.offset + 24));
    Ok((end, opened.id, count))
}

#[cfg(test)]
mod tests {
    use super::*;
    use crate::gen::files::Builder;
    use crate::reference::store;

    /// Two bodies, the first retired by a second manifest whose flags and timestamp are its own.
    fn file() -> Builder {
        let mut file = Builder::new(0, 10);
        file.body(7, 8, 1, &[1; 100]);
        file.manifest(0, 1, &[]);
        file.body(9, 0, 2, b"kept");
        file.links[0].1 = 1;
        file.manifest(0x0140, 77, &[]);
        file
    }

    /// The sentences of §11 on a file that can be counted by hand.
    #[test]
    fn the_live_body_and_one_manifest() {
        let file = file().bytes;
        let mut buffer = vec![0xA5; 5_000];
        // 128 bytes for the body; 64 of a header, 64 for one entry and 4,096 for the root.
        assert_eq!(compact(&file, &mut buffer), Ok((4_352, 13, 1)));
        assert!(buffer[4_352..].iter().all(|&byte| byte == 0xA5));
        let old = 192 + 4_224;
        assert_eq!(buffer[..128], file[old..old + 128]);
        let entry = Entry::read(&buffer[128 + 64 + 8..][..ENTRY]);
        assert_eq!((entry.offset, entry.id, entry.kind, entry.state, entry.flags), (0, 12, 9, LIVE, 0));
        // The manifest's flags are 0, its id and timestamp the old one's.
        assert_eq!((buffer[134], buffer[135], buffer[136], buffer[152]), (0, 0, 13, 77));
        let opened = manifest::open(&buffer[..4_352]).expect("the fresh file opens");
        assert_eq!((opened.offset, opened.end, opened.id, opened.count), (128, 4_352, 13, 1));
        assert_eq!((store::payload(&buffer[..4_352], 12), store::payload(&buffer[..4_352], 10)), (Ok((64, 4)), Err(3)));
        let again = buffer[..4_352].to_vec();
        let mut other = vec![0; 4_352];
        assert_eq!((compact(&again, &mut other), other == again), (Ok((4_352, 13, 1)), true));
    }

    #[test]
    fn the_order_of_the_refusals() {
        let whole = file();
        let mut room = [0xEE; 4_352];
        assert_eq!(compact(&[], &mut room), Err(2));
        assert_eq!(compact(&vec![0; 16_777_217], &mut room), Err(1));
        assert_eq!(compact(&whole.bytes, &mut room[..4_351]), Err(9));
        // Damage in the retired body and in the older manifest does not matter, in the live body it does.
        let damaged = |link: usize| {
            let mut file = whole.bytes.clone();
            file[whole.links[link].0 + HEADER] ^= 1;
            file
        };
        assert_eq!(compact(&damaged(0), &mut room[..0]), Err(9));
        assert_eq!(compact(&damaged(1), &mut room[..0]), Err(9));
        assert_eq!(compact(&damaged(2), &mut room[..0]), Err(4));
        assert!(room.iter().all(|&byte| byte == 0xEE));
    }

    /// Nothing live: a manifest alone.
    #[test]
    fn nothing_live() {
        let mut file = Builder::new(0, 0);
        file.manifest(0, 5, &[]);
        file.manifest(0, 6, &[]);
        assert_eq!(compact(&file.bytes, &mut [0; 4_224]), Ok((4_224, 1, 0)));
    }
}
