//! Appends and compactions take turns: each holds a lock on the file that it writes.

use crate::failure::Failure;
use std::fs::{self, File, TryLockError};
use std::path::Path;
use std::time::{Duration, Instant};

const PAUSE: Duration = Duration::from_millis(20);

/// Locks an open file. Of two writers at once, the second must not start from what the first
/// is writing: it waits as long as it is told to, and is turned away then.
pub fn lock(path: &Path, file: &File, wait: Duration) -> Result<(), Failure> {
    let begun = Instant::now();
    loop {
        match file.try_lock() {
            Ok(()) => return Ok(()),
            Err(TryLockError::WouldBlock) if begun.elapsed() < wait => std::thread::sleep(PAUSE),
            Err(TryLockError::WouldBlock) => {
                let words = "another append or compaction is at work on it; try again, or add --wait SECONDS";
                return Err(Failure::Busy(format!("{}: {words}", path.display())));
            }
            Err(TryLockError::Error(error)) => return Err(Failure::broken(path, "cannot be locked", &error)),
        }
    }
}

/// Whether a path still names an open file. A first batch or a fresh file that another has put in
/// its place meanwhile makes it name a new one, and a lock on the old one holds nothing.
#[cfg(unix)]
pub fn still_named(path: &Path, file: &File) -> bool {
    use std::os::unix::fs::MetadataExt;
    let place = |metadata: fs::Metadata| (metadata.dev(), metadata.ino());
    matches!((fs::metadata(path).map(place), file.metadata().map(place)), (Ok(named), Ok(open)) if named == open)
}

/// Elsewhere a file that is open cannot lose its name.
#[cfg(not(unix))]
pub fn still_named(path: &Path, _: &File) -> bool {
    fs::metadata(path).is_ok()
}
