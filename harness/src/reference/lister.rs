//! The lister's text, document 01, section "The lister". It reads files of at most
//! 65,536 bytes; a longer one is `refused 1` before anything else is looked at.

use super::manifest::{self, Entry, ENTRY, LIVE};
use super::refusal::FILE_TOO_LONG;
use super::{limits, segment};
use std::fmt::Write;

/// What the program prints for a file, a line feed behind every line.
pub fn list(file: &[u8]) -> String {
    if file.len() > limits::LISTED {
        return refused(FILE_TOO_LONG);
    }
    let opened = match manifest::open(file) {
        Err(number) => return refused(number),
        Ok(opened) => opened,
    };
    let mut text = String::from("id type offset length state check\n");
    for bytes in manifest::directory(file, &opened).chunks_exact(ENTRY) {
        let entry = Entry::read(bytes);
        let state = if entry.state == LIVE { "live" } else { "retired" };
        let check = if segment::hash_equal(&entry.hash, entry.payload(file)) { "ok" } else { "bad" };
        line(&mut text, entry.id, entry.kind, entry.offset, entry.length, state, check);
    }
    // The file's own manifest is confirmed, so it is whole.
    let length = manifest::payload_length(opened.count) as u64;
    line(&mut text, opened.id, segment::MANIFEST, opened.offset as u64, length, "manifest", "ok");
    writeln!(text, "end {} tried {}", opened.end, opened.tried).expect("a string takes all text");
    text
}

fn refused(number: u32) -> String {
    format!("refused {number}\n")
}

fn line(text: &mut String, id: u64, kind: u8, offset: u64, length: u64, state: &str, check: &str) {
    writeln!(text, "{id} {kind} {offset} {length} {state} {check}").expect("a string takes all text");
}

#[cfg(test)]
mod tests {
    use super::*;
    use crate::gen::batch_of;
    use crate::reference::append::append;

    /// The list that document 01 prints.
    #[test]
    fn the_list_of_the_document() {
        let mut file = vec![0; 5_000];
        let (end, ..) = append(&mut file, 0, &batch_of(&[(7, 0, b"")]), &[], 3).unwrap();
        let wanted = "id type offset length state check\n\
                      0 7 0 0 live ok\n\
                      1 5 64 4160 manifest ok\n\
                      end 4288 tried 66\n";
        assert_eq!(list(&file[..end]), wanted);
    }

    #[test]
    fn refusals_are_one_line() {
        assert_eq!(list(&[]), "refused 2\n");
        assert_eq!(list(&vec![0; 65_536]), "refused 2\n");
        assert_eq!(list(&vec![0; 65_537]), "refused 1\n");
    }

    /// Of two bodies one is retired by a second batch, the other damaged afterwards.
    #[test]
    fn retired_and_damaged_segments_are_listed() {
        let mut file = vec![0; 12_000];
        let batch = batch_of(&[(0xF3, 0, b"first"), (2, 0x48, &[7; 64])]);
        let (end, ..) = append(&mut file, 0, &batch, &[], 3).unwrap();
        let (end, ..) = append(&mut file, end as u64, &batch_of(&[]), &[0], 4).unwrap();
        file[130 + 64] ^= 0xFF;
        let wanted = "id type offset length state check\n\
                      0 243 0 5 retired ok\n\
                      1 2 128 64 live bad\n\
                      2 5 256 4224 live ok\n\
                      3 5 4544 4288 manifest ok\n\
                      end 8896 tried 68\n";
        assert_eq!(list(&file[..end]), wanted);
        // Nine torn bytes behind the end change nothing: no boundary more fits.
        file[end..end + 9].fill(0xFF);
        assert_eq!(list(&file[..end + 9]), wanted);
        // A whole torn header's room is one boundary more.
        assert_eq!(list(&file[..end + 64]), wanted.replace("tried 68", "tried 69"));
        // Half of the second manifest: the first one is the file's again.
        assert!(list(&file[..end - 64]).contains("2 5 256 4224 manifest ok\nend 4544 tried 134\n"));
    }
}
