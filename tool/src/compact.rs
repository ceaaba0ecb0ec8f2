//! `rvf compact`: the library writes a fresh file of the live segments in memory; it is put
//! in the old file's place, or written to a new path. The old file is kept until the new one is
//! stored whole: a part of a fresh file has no manifest.

use crate::args::Compact;
use crate::beside::{Beside, Unplaced};
use crate::failure::Failure;
use crate::files::must_be_regular;
use crate::first::{create, must_be_free};
use crate::fresh::{Done, Fresh};
use crate::held::Held;
use crate::lost::loss;
use crate::refusals::compacting;
use crate::room::frees;
use crate::Answer;
use std::fs::{self, Metadata};
use std::io;
use std::path::Path;

pub fn run(request: &Compact, json: bool) -> Result<Answer, Failure> {
    let path = &request.file;
    let (fresh, done) = loop {
        // Where another has put a fresh file in its place meanwhile, that is the one to look at.
        if let Some(done) = compact(request)? {
            break done;
        }
    };
    let named = if let Done::Written { to } = &done { to } else { path };
    let room = fresh.room().map_or(String::new(), |room| room.words(named, &frees(named, &fresh.bytes)));
    Ok(Answer::of(json, || fresh.json(&done), || fresh.text(path, &done)).saying(room))
}

/// Makes the compaction and, unless it is a dry run, writes it. None where the path names
/// another file than it did.
fn compact(request: &Compact) -> Result<Option<(Fresh, Done)>, Failure> {
    let (path, writing) = (&request.file, request.writing);
    let metadata = fs::metadata(path).map_err(|error| Failure::unreadable(path, &error))?;
    must_be_regular(path, &metadata)?;
    if let Some(to) = &request.to {
        must_be_free(to)?;
    }
    let in_place = request.to.is_none() && !writing.dry_run;
    let Some(held) = Held::of(path, in_place.then_some(writing.wait))? else {
        return Ok(None);
    };
    let fresh = fresh(request, &held.bytes)?;
    let same = request.to.is_none() && fresh.bytes == held.bytes;
    if request.to.is_none() && !same {
        must_have_one_name(path, &metadata)?;
    }
    let done = match &request.to {
        _ if same => Done::Same,
        _ if writing.dry_run => Done::Dry,
        Some(to) => {
            create(to, &fresh.bytes, writing.wait)?;
            Done::Written { to: to.clone() }
        }
        None => {
            let saved = if writing.discard_tail { held.save_from(fresh.end, path)? } else { None };
            replace(request, &held, &fresh.bytes)?;
            Done::Replaced { saved }
        }
    };
    Ok(Some((fresh, done)))
}

/// The fresh file. Where it would leave out lost batches, it must be told so.
fn fresh(request: &Compact, file: &[u8]) -> Result<Fresh, Failure> {
    let path = &request.file;
    let refused = |refusal| compacting(path, file, refusal);
    if !request.writing.discard_tail && rvf::open(file).is_ok() {
        if let Some(loss) = loss(file).map_err(refused)? {
            let (would, option) = match request.to {
                None => (
                    "a compaction would remove",
                    "or --discard-tail, which saves what lies behind in a file of its own and compacts",
                ),
                Some(_) => ("the new file would lack", "or --discard-tail, which leaves it out of the new file"),
            };
            return Err(loss.unwritten(path, would, option));
        }
    }
    Fresh::of(file).map_err(refused)
}

/// Puts the fresh file in the place of the one that is held, with its owner and permissions.
fn replace(request: &Compact, held: &Held, fresh: &[u8]) -> Result<(), Failure> {
    let path = &request.file;
    let failed = |words: String| Failure::Io(format!("{}: {words}", path.display()));
    let mut beside = Beside::open(path, request.writing.wait)?;
    let old = held.file.as_ref().map_or_else(|| fs::metadata(path), |file| file.metadata());
    if let Err(error) = old.and_then(|old| beside.become_like(&old)) {
        beside.remove();
        return Err(failed(format!("{error}; it stays as it is; compact it as its owner, or to a new file: --to NEW")));
    }
    let unchanged = || held.must_be_unchanged().map_err(io::Error::other);
    beside.place(fresh, unchanged).map_err(|unplaced| match unplaced {
        Unplaced::Before(error) => {
            beside.remove();
            failed(format!("writing failed: {error}; the file stays as it is"))
        }
        Unplaced::Behind(error) => failed(format!(
            "it is compacted, but its folder cannot be flushed: {error}; after a power cut it may be as it was before"
        )),
    })
}

/// The other names of a file would go on to name the old one, and appends to it would be lost to
/// this one.
#[cfg(unix)]
fn must_have_one_name(path: &Path, metadata: &Metadata) -> Result<(), Failure> {
    use std::os::unix::fs::MetadataExt;
    match metadata.nlink() {
        0 | 1 => Ok(()),
        names => {
            let words = "the others would go on to name the old file; write a new one with --to NEW";
            Err(Failure::Input(format!("{}: has {names} names (hard links), and {words}", path.display())))
        }
    }
}

#[cfg(not(unix))]
fn must_have_one_name(_: &Path, _: &Metadata) -> Result<(), Failure> {
    Ok(())
}
