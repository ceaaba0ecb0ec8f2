//! The order in which an accepted append reaches the disk.
//!
//! A disk may store what lies between two flushes in any order, and a power cut may come
//! at any moment. So the new bytes are written in two steps with a flush between them, and
//! the second step is the last 64 bytes, which hold the checksum of the new manifest's root.
//! Before that step the file is too short for the new manifest, whatever else was stored or
//! lost: the old one is the file's. After it nothing is missing.

use std::fs::File;
use std::io::{self, Seek, SeekFrom, Write};

/// The last bytes of a manifest, written by themselves.
pub const LAST: usize = 64;

/// What the commit needs of a file. The tests have one that stops or forgets.
pub trait Disk {
    fn set_len(&mut self, length: u64) -> io::Result<()>;
    fn write_at(&mut self, offset: u64, bytes: &[u8]) -> io::Result<()>;
    /// Returns when everything so far is stored.
    fn sync(&mut self) -> io::Result<()>;
}

impl Disk for File {
    fn set_len(&mut self, length: u64) -> io::Result<()> {
        File::set_len(self, length)
    }

    fn write_at(&mut self, offset: u64, bytes: &[u8]) -> io::Result<()> {
        self.seek(SeekFrom::Start(offset))?;
        self.write_all(bytes)
    }

    fn sync(&mut self) -> io::Result<()> {
        self.sync_all()
    }
}

/// A commit that broke off.
#[derive(Debug)]
pub struct Broken {
    pub error: io::Error,
    /// Whether the last 64 bytes may be in the file: then, unless they were taken back,
    /// the file may hold the new batch.
    pub sealing: bool,
    /// What came of shortening the file back to the start.
    pub undone: io::Result<()>,
}

/// Writes the bytes of an append from `start` on, which is the end of the file's manifest,
/// or 0. What lies behind it is cut off first: mixed with new bytes it could be anything.
pub fn commit(disk: &mut impl Disk, start: u64, new: &[u8]) -> Result<(), Broken> {
    let (body, last) = new.split_at(new.len().saturating_sub(LAST));
    let mut sealing = false;
    let mut steps = || {
        shorten(disk, start)?;
        disk.write_at(start, body)?;
        disk.sync()?;
        sealing = true;
        disk.write_at(start + body.len() as u64, last)?;
        disk.sync()
    };
    steps().map_err(|error| Broken { error, sealing, undone: shorten(disk, start) })
}

fn shorten(disk: &mut impl Disk, length: u64) -> io::Result<()> {
    disk.set_len(length)?;
    disk.sync()
}

impl Broken {
    /// What happened, and what the file answers now.
    pub fn words(&self) -> String {
        let error = &self.error;
        match (&self.undone, self.sealing) {
            (Ok(()), _) => format!("writing failed: {error}; what was written is taken back, the file answers as before"),
            (Err(undo), false) => format!(
                "writing failed: {error}; shortening the file back failed too: {undo}; \
                 it still answers as before, and the next append removes what was written"
            ),
            (Err(undo), true) => format!(
                "writing failed: {error}; shortening the file back failed too: {undo}; \
                 it answers as before or holds the new batch whole: see 'rvf list'"
            ),
        }
    }
}
