//! Inputs: read up to a limit and no further, never waiting on a pipe by mistake, and never
//! taken for whole where they ended early. New files beside those that are there.

use crate::args::Source;
use crate::failure::{Failure, Refused};
use rvf::{Refusal, FILE_LIMIT};
use std::fs::{self, File, Metadata};
use std::io::{self, ErrorKind, Read, Write};
use std::path::Path;
use std::time::Duration;

/// How often a file is read again that an append changes meanwhile.
const READINGS: usize = 20;

/// The bytes of a file of the store, as a reader has them: an append may be at work on it,
/// so a length that changes is no failure before it has changed some times.
pub fn read_store(path: &Path) -> Result<Vec<u8>, Failure> {
    let metadata = fs::metadata(path).map_err(|error| Failure::unreadable(path, &error))?;
    must_be_regular(path, &metadata)?;
    let read = || read_whole(path, &File::open(path).map_err(|error| Failure::unreadable(path, &error))?, FILE_LIMIT);
    for _ in 1..READINGS {
        match read() {
            Err(Failure::Io(_)) => std::thread::sleep(Duration::from_millis(10)),
            done => return done,
        }
    }
    read()
}

/// What an open file holds: exactly as many bytes as the system says that it has, before and
/// behind the reading. A file above the limit is refused by its length.
pub fn read_whole(path: &Path, file: &File, limit: usize) -> Result<Vec<u8>, Failure> {
    let length = || file.metadata().map(|metadata| metadata.len());
    let failed = |error: io::Error| Failure::broken(path, "reading failed", &error);
    let expected = length().map_err(failed)?;
    if expected > limit as u64 {
        return Err(too_long(path, expected).into());
    }
    let bytes = read_up_to(file, limit, expected as usize).map_err(failed)?;
    let now = length().map_err(failed)?;
    whole(bytes, expected, now).map_err(|words| Failure::Io(format!("{}: {words}", path.display())))
}

/// The bytes that were read, if they are as many as the system said before and says now.
fn whole(bytes: Vec<u8>, before: u64, now: u64) -> Result<Vec<u8>, String> {
    let read = bytes.len() as u64;
    if before != now {
        return Err(format!("has changed its length from {before} to {now} bytes while it was read; try again"));
    }
    if read != before {
        let words = if read < before { "reading ended early" } else { "there is more to read than there should be" };
        return Err(format!("{words}: {read} bytes, and the system says that it has {before}"));
    }
    Ok(bytes)
}

pub fn too_long(path: &Path, length: u64) -> Refused {
    let why = format!("it has {length} bytes, a file has at most {FILE_LIMIT}");
    Refused::of(path, Refusal::FileTooLong)
        .why(why)
        .next("is it the file that you mean? a store never grows above the limit")
}

/// Refuses directories, pipes and devices: opening a pipe may wait for ever, and only a
/// regular file can be shortened and written in the middle.
pub fn must_be_regular(path: &Path, metadata: &Metadata) -> Result<(), Failure> {
    let what = match metadata {
        _ if metadata.is_file() => return Ok(()),
        _ if metadata.is_dir() => "is a directory; name a file",
        _ => "is a pipe or a device; name a regular file",
    };
    Err(Failure::Input(format!("{}: {what}", path.display())))
}

/// The bytes of a batch or of a text, at most `limit` and one more. These may come through a
/// pipe; of a regular file the length is known, so that one that ends early is told.
pub fn read_source(source: &Source, limit: usize, stdin: &mut dyn Read) -> Result<Vec<u8>, Failure> {
    let Source::Path(path) = source else {
        let failed = |error: io::Error| Failure::broken(Path::new("standard input"), "reading failed", &error);
        return read_up_to(stdin, limit, 0).map_err(failed);
    };
    let file = File::open(path).map_err(|error| Failure::unreadable(path, &error))?;
    let metadata = file.metadata().map_err(|error| Failure::unreadable(path, &error))?;
    if metadata.is_file() && metadata.len() <= limit as u64 {
        return read_whole(path, &file, limit);
    }
    read_up_to(file, limit, 0).map_err(|error| match error.kind() {
        // A directory can be opened and not be read.
        ErrorKind::IsADirectory => Failure::unreadable(path, &error),
        _ => Failure::broken(path, "reading failed", &error),
    })
}

/// The first bytes, up to one above the limit, so that too many can be told.
fn read_up_to(from: impl Read, limit: usize, expected: usize) -> io::Result<Vec<u8>> {
    let mut bytes = Vec::with_capacity(expected + 1);
    from.take(limit as u64 + 1).read_to_end(&mut bytes)?;
    Ok(bytes)
}

/// Writes a file that was not there, and flushes it; one that was is left alone.
pub fn write_new(path: &Path, bytes: &[u8]) -> Result<(), Failure> {
    let failed = |error: io::Error| match error.kind() {
        ErrorKind::AlreadyExists => Failure::Io(format!("{}: exists already; name another path", path.display())),
        _ => Failure::broken(path, "writing failed", &error),
    };
    let mut file = File::create_new(path).map_err(failed)?;
    file.write_all(bytes).and_then(|()| file.sync_all()).map_err(|error| {
        // Half a payload must not be taken for a whole one; it is our own file.
        let _ = fs::remove_file(path);
        failed(error)
    })
}

/// Flushes the folder that a file lies in, or a power cut could take away its name.
pub fn flush_folder(path: &Path) -> Result<(), Failure> {
    sync_folder(path).map_err(|error| Failure::broken(folder_of(path), "the folder cannot be flushed", &error))
}

pub fn sync_folder(path: &Path) -> io::Result<()> {
    File::open(folder_of(path))?.sync_all()
}

fn folder_of(path: &Path) -> &Path {
    path.parent().filter(|folder| !folder.as_os_str().is_empty()).unwrap_or(Path::new("."))
}

#[cfg(test)]
mod tests {
    use super::*;

    #[test]
    fn only_what_has_the_length_that_the_system_says_is_whole() {
        assert_eq!(whole(vec![1; 10], 10, 10), Ok(vec![1; 10]));
        assert_eq!(
            whole(vec![1; 9], 10, 10).unwrap_err(),
            "reading ended early: 9 bytes, and the system says that it has 10"
        );
        assert!(whole(vec![1; 11], 10, 10).unwrap_err().starts_with("there is more to read than there should be"));
        for (read, before, now) in [(9, 10, 9), (10, 10, 11), (11, 10, 11), (0, 0, 5)] {
            let words = whole(vec![1; read], before, now).unwrap_err();
            assert_eq!(
                words,
                format!("has changed its length from {before} to {now} bytes while it was read; try again")
            );
        }
    }
}
