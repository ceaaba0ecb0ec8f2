//! A store that is to be written: locked, read whole, and looked at again before it changes.

use crate::failure::Failure;
use crate::files::{flush_folder, read_store, read_whole, write_new};
use crate::lock::{lock, still_named};
use rvf::FILE_LIMIT;
use std::fs::{self, File, OpenOptions};
use std::path::{Path, PathBuf};
use std::time::Duration;

/// The bytes of a file and, where it is to be written, the locked file.
#[derive(Default)]
pub struct Held {
    pub bytes: Vec<u8>,
    pub file: Option<File>,
}

impl Held {
    /// Reads a file, under the lock that is waited for so long if it is to be written. None where
    /// the path names another file by the time that the lock is had: then it must be tried again.
    pub fn of(path: &Path, lock_within: Option<Duration>) -> Result<Option<Held>, Failure> {
        let Some(wait) = lock_within else {
            return Ok(Some(Held { bytes: read_store(path)?, file: None }));
        };
        let opened = OpenOptions::new().read(true).write(true).open(path);
        let file = opened.map_err(|error| Failure::unreadable(path, &error))?;
        lock(path, &file, wait)?;
        if !still_named(path, &file) {
            return Ok(None);
        }
        Ok(Some(Held { bytes: read_whole(path, &file, FILE_LIMIT)?, file: Some(file) }))
    }

    /// Whoever keeps to the lock cannot have changed the file; others must not lose what they wrote.
    pub fn must_be_unchanged(&self) -> Result<(), &'static str> {
        let length = |file: &File| file.metadata().map(|metadata| metadata.len()).ok();
        match self.file.as_ref().and_then(length) {
            Some(length) if length == self.bytes.len() as u64 => Ok(()),
            _ => Err("somebody has changed its length without the lock"),
        }
    }

    /// Saves the bytes from a place on, if there are any, in a file of their own beside the store's.
    pub fn save_from(&self, start: usize, path: &Path) -> Result<Option<PathBuf>, Failure> {
        let tail = &self.bytes[start..];
        if tail.is_empty() {
            return Ok(None);
        }
        let name = |number: u64| {
            let mut name = path.as_os_str().to_os_string();
            name.push(format!(".tail-{number}"));
            PathBuf::from(name)
        };
        let free = (1..).map(name).find(|name| fs::symlink_metadata(name).is_err());
        let free = free.ok_or_else(|| Failure::Io(format!("{}: no name is left for its tail", path.display())))?;
        write_new(&free, tail)?;
        flush_folder(&free)?;
        Ok(Some(free))
    }
}
