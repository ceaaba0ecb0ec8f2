//! A compaction made in memory by the library, and what is said of it.

use crate::json::Json;
use crate::room::{entries, kept, Room};
use rvf::{Compacted, Entry, Refusal};
use std::path::{Path, PathBuf};

/// The fresh file, in memory, and what it leaves out of the old one.
pub struct Fresh {
    /// Exactly the fresh file.
    pub bytes: Vec<u8>,
    compacted: Compacted,
    /// Where the old manifest ends, and how many bytes lie behind it.
    pub end: usize,
    behind: usize,
    back: Room,
    retired: Vec<u64>,
    manifests: Vec<u64>,
}

/// What became of it.
pub enum Done {
    /// Nothing is written: it was not to be.
    Dry,
    /// The file has the same bytes, so it is left alone.
    Same,
    /// It is in the file's place; what lay behind the old end may be saved somewhere.
    Replaced { saved: Option<PathBuf> },
    /// It is a new file; the old one is as it was.
    Written { to: PathBuf },
}

impl Fresh {
    pub fn of(file: &[u8]) -> Result<Fresh, Refusal> {
        let (manifest, entries) = (rvf::open(file)?, rvf::entries(file)?);
        let end = manifest.end as usize;
        // A fresh file never ends behind the old one, so there is room.
        let mut bytes = vec![0; end];
        let compacted = rvf::compact(file, &mut bytes)?;
        bytes.truncate(compacted.end as usize);
        let ids = |wanted: &dyn Fn(&Entry) -> bool| entries.iter().filter(|e| wanted(e)).map(|e| e.id).collect();
        Ok(Fresh {
            bytes,
            compacted,
            end,
            behind: file.len() - end,
            back: Room { entries: manifest.count - compacted.count, bytes: manifest.end - compacted.end },
            retired: ids(&|entry| entry.retired),
            manifests: ids(&|entry| !kept(entry) && !entry.retired),
        })
    }

    pub fn room(&self) -> Option<Room> {
        Room::scarce(self.compacted.count, self.compacted.end)
    }

    /// What is left out, in words.
    fn without(&self) -> String {
        let count = |ids: &[u64], one: &str| match ids.len() {
            1 => format!("1 {one}"),
            many => format!("{many} {one}s"),
        };
        format!("{} and {}", count(&self.retired, "retired segment"), count(&self.manifests, "older manifest"))
    }

    pub fn text(&self, path: &Path, done: &Done) -> String {
        let (file, Compacted { end, id, count }) = (path.display(), self.compacted);
        let has = format!("manifest {id}; {}, {end} bytes", entries(count));
        let back = self.back.shown();
        // What is left out and what becomes of it; nothing where nothing is.
        let without = |becomes: &str| match self.back.entries {
            0 => String::new(),
            _ => format!(": {} {becomes}", self.without()),
        };
        let (mut text, gone) = match done {
            Done::Same => return format!("{file}: nothing comes back: {has}; it is left as it is\n"),
            Done::Dry => {
                let first = format!("{file}: would be compacted, with {has}\n");
                (first + &format!("{back} would come back{}\n", without("would be gone")), "would be gone".to_string())
            }
            Done::Replaced { saved } => {
                let first = format!("{file}: compacted, with {has}\n");
                let saved = saved.as_ref().map_or(String::new(), |path| {
                    format!("; they are saved in {}", path.display())
                });
                (first + &format!("{back} came back{}\n", without("are gone")), format!("are gone{saved}"))
            }
            Done::Written { to } => {
                let first = format!("{}: written, with {has}\n", to.display());
                let second = format!("{back} less than {file}, which stays{}\n", without("are left out"));
                (first + &second, "are left out".to_string())
            }
        };
        if self.behind > 0 {
            text += &format!("{} bytes behind the old end {gone}\n", self.behind);
        }
        if matches!(done, Done::Dry) {
            text += "nothing is written\n";
        }
        text
    }

    pub fn json(&self, done: &Done) -> Json {
        let Compacted { end, id, count } = self.compacted;
        let path = |path: &PathBuf| Json::text(path.display().to_string());
        let mut members = vec![
            ("manifest", Json::Number(id)),
            ("entries", Json::Number(count)),
            ("end", Json::Number(end)),
            ("back", self.back.json()),
            ("retired", Json::numbers(self.retired.iter().copied())),
            ("manifests", Json::numbers(self.manifests.iter().copied())),
            ("removed", Json::Number(self.behind as u64)),
        ];
        members.extend(match done {
            Done::Dry => Some(("dry_run", Json::True)),
            Done::Same => Some(("unchanged", Json::True)),
            Done::Replaced { saved } => saved.as_ref().map(|saved| ("saved", path(saved))),
            Done::Written { to } => Some(("to", path(to))),
        });
        members.extend(self.room().map(|room| ("left", room.json())));
        Json::Object(members)
    }
}
