//! A file written whole beside its place and then renamed into it: whatever stops that, the
//! place has what it had, or the whole new file.

use crate::commit::Disk;
use crate::failure::Failure;
use crate::files::sync_folder;
use crate::lock::{lock, still_named};
use std::ffi::OsString;
use std::fs::{self, File, Metadata, OpenOptions};
use std::io::{self, ErrorKind};
use std::path::{Path, PathBuf};
use std::time::Duration;

/// What the steps need of a folder. The tests have one that stops or forgets.
pub trait Names {
    /// Gives the file beside the place the place's name.
    fn rename(&mut self) -> io::Result<()>;
    /// Returns when the names are stored.
    fn sync(&mut self) -> io::Result<()>;
}

/// Where the steps broke off.
#[derive(Debug)]
pub enum Unplaced {
    /// Before the rename: the place is as it was.
    Before(io::Error),
    /// Behind it: the new file is in place, and whether its name is stored is not known.
    Behind(io::Error),
}

/// The steps: the bytes are stored before they get the name, and the name before it is said.
pub fn place(disk: &mut impl Disk, names: &mut impl Names, bytes: &[u8]) -> Result<(), Unplaced> {
    let mut stored = || {
        disk.set_len(0)?;
        disk.write_at(0, bytes)?;
        disk.sync()
    };
    stored().and_then(|()| names.rename()).map_err(Unplaced::Before)?;
    names.sync().map_err(Unplaced::Behind)
}

/// The file beside a place, locked.
pub struct Beside {
    /// The place; where a link was named, the file that it leads to.
    pub path: PathBuf,
    temporary: PathBuf,
    pub file: File,
}

impl Beside {
    /// Opens the file beside a place. Its name is always the same, so that what a kill has left is
    /// used up by the next one; one that was renamed or removed while its lock was waited for is
    /// not ours to write.
    pub fn open(name: &Path, wait: Duration) -> Result<Beside, Failure> {
        let path = place_of(name)?;
        let temporary = temporary(&path);
        loop {
            let opened = OpenOptions::new().read(true).write(true).create(true).truncate(false).open(&temporary);
            let file = opened.map_err(|error| match error.kind() {
                ErrorKind::NotFound => {
                    Failure::Io(format!("{}: cannot be created: there is no such folder", name.display()))
                }
                _ => {
                    let what = format!("the file to be written beside it, {}", temporary.display());
                    Failure::broken(name, &format!("{what}, cannot be created"), &error)
                }
            })?;
            // Somebody else's file behind a link of this name is not to be emptied.
            if is_link(&temporary) {
                return Err(Failure::Io(format!("{}: is a link in the way; remove it", temporary.display())));
            }
            lock(name, &file, wait)?;
            if still_named(&temporary, &file) {
                return Ok(Beside { path, temporary, file });
            }
        }
    }

    /// Gives it the owner and the permissions of the file whose place it takes, before anything
    /// is in it.
    pub fn become_like(&self, other: &Metadata) -> io::Result<()> {
        self.file.set_len(0)?;
        own_alike(&self.file, other)?;
        self.file.set_permissions(other.permissions())
    }

    /// Writes the bytes and puts the file into its place. `ready` is called last before that.
    pub fn place(&mut self, bytes: &[u8], ready: impl Fn() -> io::Result<()>) -> Result<(), Unplaced> {
        let mut names = Renaming { from: &self.temporary, to: &self.path, ready };
        place(&mut self.file, &mut names, bytes)
    }

    /// Takes the file beside away again.
    pub fn remove(&self) {
        let _ = fs::remove_file(&self.temporary);
    }
}

struct Renaming<'a, R> {
    from: &'a Path,
    to: &'a Path,
    ready: R,
}

impl<R: Fn() -> io::Result<()>> Names for Renaming<'_, R> {
    fn rename(&mut self) -> io::Result<()> {
        (self.ready)()?;
        fs::rename(self.from, self.to)
    }

    fn sync(&mut self) -> io::Result<()> {
        sync_folder(self.to)
    }
}

/// A link stays a link: the file that it names is the one to be replaced.
fn place_of(name: &Path) -> Result<PathBuf, Failure> {
    match fs::canonicalize(name) {
        Ok(target) => Ok(target),
        Err(_) if is_link(name) => {
            Err(Failure::Input(format!("{}: is a link to a file that is not there", name.display())))
        }
        Err(_) => Ok(name.to_path_buf()),
    }
}

fn temporary(path: &Path) -> PathBuf {
    let mut name = OsString::from(".");
    name.push(path.file_name().unwrap_or_default());
    name.push(".rvf-new");
    path.with_file_name(name)
}

fn is_link(path: &Path) -> bool {
    fs::symlink_metadata(path).is_ok_and(|metadata| metadata.is_symlink())
}

#[cfg(unix)]
fn own_alike(file: &File, other: &Metadata) -> io::Result<()> {
    use std::os::unix::fs::{fchown, MetadataExt};
    let owner = |metadata: &Metadata| (metadata.uid(), metadata.gid());
    let (user, group) = owner(other);
    if owner(&file.metadata()?) == (user, group) {
        return Ok(());
    }
    fchown(file, Some(user), Some(group)).map_err(|error| {
        io::Error::other(format!("its owner {user} and group {group} cannot be kept: {error}"))
    })
}

#[cfg(not(unix))]
fn own_alike(_: &File, _: &Metadata) -> io::Result<()> {
    Ok(())
}
