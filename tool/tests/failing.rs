//! A commit in which a step fails, as on a full disk: the file is shortened back.

mod common;

use common::cases::{apply, cases, write, Step};
use common::end_of;
use rvf_tool::commit::{commit, Disk};
use std::io;

/// A file in memory on which a step fails, and all after it if so wished; a failing write
/// leaves a part of its bytes.
struct Failing {
    file: Vec<u8>,
    /// How many steps succeed before one fails.
    left: usize,
    /// How many bytes a failing write leaves.
    part: usize,
    for_good: bool,
    failed: bool,
}

impl Failing {
    fn step(&mut self, step: Step) -> io::Result<()> {
        let fails = if self.failed { self.for_good } else { self.left == 0 };
        if !fails {
            self.left = self.left.saturating_sub(1);
            apply(&mut self.file, &step);
            return Ok(());
        }
        self.failed = true;
        if let Step::Write(offset, bytes) = &step {
            write(&mut self.file, *offset as usize, &bytes[..self.part.min(bytes.len())]);
        }
        Err(io::Error::other("no room"))
    }
}

impl Disk for Failing {
    fn set_len(&mut self, length: u64) -> io::Result<()> {
        self.step(Step::SetLen(length))
    }

    fn write_at(&mut self, offset: u64, bytes: &[u8]) -> io::Result<()> {
        self.step(Step::Write(offset, bytes.to_vec()))
    }

    fn sync(&mut self) -> io::Result<()> {
        self.step(Step::Sync)
    }
}

/// Where a commit fails: before which of its six steps, what a write leaves, and whether
/// everything behind it fails too.
fn places() -> impl Iterator<Item = (usize, usize, bool)> {
    (0..6).flat_map(|step| [0, 1, 64, 4_000].into_iter().flat_map(move |part| [(step, part, false), (step, part, true)]))
}

/// A step that fails: the file is shortened back and answers as before; where that fails
/// too, what is said of it is true.
#[test]
fn a_failing_step_is_taken_back() {
    for case in cases() {
        let start = end_of(&case.old);
        for (left, part, for_good) in places() {
            let mut disk = Failing { file: case.old.clone(), left, part, for_good, failed: false };
            let broken = commit(&mut disk, start as u64, &case.new[start..]).expect_err("a step fails");
            let whole = case.must_be_sound(&disk.file);
            assert_eq!(broken.undone.is_ok(), !for_good);
            let words = broken.words();
            if for_good {
                assert!(!whole || words.contains("or holds the new batch whole"), "{words}");
                assert!(words.contains("shortening the file back failed too: no room"), "{words}");
            } else {
                assert!(disk.file == case.old[..start] && words.ends_with("the file answers as before"), "{words}");
            }
        }
    }
}
