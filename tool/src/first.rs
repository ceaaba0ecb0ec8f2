//! Files that are new: the first batch of a store, and what a command writes to a path of its
//! own. There is no manifest to go back to, so each is written beside and renamed: whatever stops
//! it, the file is there whole or not at all.

use crate::beside::{Beside, Unplaced};
use crate::failure::Failure;
use std::fs;
use std::io;
use std::path::Path;
use std::time::Duration;

/// Whether the bytes are in place, or another first batch was before them.
#[derive(Debug, PartialEq, Eq)]
pub enum Put {
    Done,
    Overtaken,
}

/// Puts bytes into a file that is not there, or is there and empty. A failure leaves none, or
/// the empty one.
pub fn put(name: &Path, bytes: &[u8], wait: Duration) -> Result<Put, Failure> {
    let mut beside = Beside::open(name, wait)?;
    // Whoever had the lock before may have put a first batch in place.
    let before = match fs::metadata(&beside.path) {
        Ok(metadata) if metadata.len() > 0 => {
            beside.remove();
            return Ok(Put::Overtaken);
        }
        Ok(metadata) => Some(metadata),
        Err(_) => None,
    };
    let alike = before.as_ref().map_or(Ok(()), |before| beside.become_like(before));
    let error = match alike.map_err(Unplaced::Before).and_then(|()| beside.place(bytes, || Ok(()))) {
        Ok(()) => return Ok(Put::Done),
        Err(Unplaced::Before(error)) => {
            beside.remove();
            error
        }
        Err(Unplaced::Behind(error)) => {
            let _ = if before.is_some() { beside.file.set_len(0) } else { fs::remove_file(&beside.path) };
            io::Error::other(format!("the folder cannot be flushed: {error}"))
        }
    };
    let left = if before.is_some() { "the file is empty as before" } else { "no file was made" };
    Err(Failure::Io(format!("{}: writing failed: {error}; {left}", name.display())))
}

/// Puts bytes into a file that must not be there, not even empty.
pub fn create(to: &Path, bytes: &[u8], wait: Duration) -> Result<(), Failure> {
    must_be_free(to)?;
    match put(to, bytes, wait)? {
        Put::Done => Ok(()),
        Put::Overtaken => Err(taken(to)),
    }
}

/// Whether a path is free for a new file; looked at before the work for it is done.
pub fn must_be_free(to: &Path) -> Result<(), Failure> {
    if fs::symlink_metadata(to).is_ok() { Err(taken(to)) } else { Ok(()) }
}

fn taken(to: &Path) -> Failure {
    Failure::Io(format!("{}: exists already; name another path", to.display()))
}
