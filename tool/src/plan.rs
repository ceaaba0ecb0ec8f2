//! An append made in memory, where the library accepts or refuses it; and what is said of it.

use crate::date;
use crate::json::Json;
use crate::room::{entries, Room};
use crate::walk::{le64, type_name, HEADER};
use rvf::{Appended, Entry, Refusal, FILE_LIMIT};
use std::path::{Path, PathBuf};

/// An accepted append, in memory.
pub struct Plan {
    /// The file after the append, and room behind it.
    buffer: Vec<u8>,
    /// Where the new bytes begin.
    pub start: usize,
    appended: Appended,
    /// How many bytes lay behind the start; they will be gone.
    removed: usize,
    segments: u64,
    /// The entries that become retired, in the order of the call, each with its time.
    retired: Vec<(Entry, u64)>,
    time: u64,
}

/// What became of a plan.
pub struct Done {
    /// Whether nothing was written.
    pub dry_run: bool,
    /// Where the bytes behind the old end are saved.
    pub saved: Option<PathBuf>,
}

impl Plan {
    pub fn of(file: &[u8], batch: &[u8], retire: &[u64], time: u64) -> Result<Plan, Refusal> {
        let mut buffer = vec![0; FILE_LIMIT];
        buffer[..file.len()].copy_from_slice(file);
        let appended = rvf::append(&mut buffer, file.len(), batch, retire, time)?;
        let before = if file.is_empty() { None } else { Some(rvf::open(file)?) };
        let start = before.map_or(0, |manifest| manifest.end as usize);
        // The ids from the old manifest's on are those of the new segments, then the new manifest's.
        let segments = appended.id - before.map_or(0, |manifest| manifest.id + 1);
        let entries = if file.is_empty() { Vec::new() } else { rvf::entries(file)? };
        let find = |id: &u64| entries.iter().find(|entry| entry.id == *id).copied();
        let with_time = |entry: Entry| (entry, le64(&file[entry.offset as usize..][..HEADER], 24));
        let retired = retire.iter().filter_map(find).map(with_time).collect();
        Ok(Plan { buffer, start, appended, removed: file.len() - start, segments, retired, time })
    }

    /// What is to be written, from the start on.
    pub fn new_bytes(&self) -> &[u8] {
        &self.buffer[self.start..self.appended.end as usize]
    }

    /// The whole file after the append.
    pub fn file(&self) -> &[u8] {
        &self.buffer[..self.appended.end as usize]
    }

    /// The ids of the new segments, without the manifest's.
    fn ids(&self) -> std::ops::Range<u64> {
        self.appended.id - self.segments..self.appended.id
    }

    pub fn room(&self) -> Option<Room> {
        Room::scarce(self.appended.count, self.appended.end)
    }

    pub fn text(&self, path: &Path, done: &Done) -> String {
        let Appended { end, id, count } = self.appended;
        let segments = match self.segments {
            0 => String::new(),
            1 => format!("segment {} and ", self.ids().start),
            _ => format!("segments {} to {} and ", self.ids().start, id - 1),
        };
        let dry = ("would append", "would retire", "would be");
        let (append, retire, are) = if done.dry_run { dry } else { ("appended", "retired", "are") };
        let mut text =
            format!("{}: {append} {segments}manifest {id}; {}, {end} bytes\n", path.display(), entries(count));
        for (entry, time) in &self.retired {
            let (id, kind, length) = (entry.id, type_name(entry.kind), entry.length);
            text += &format!("{retire} segment {id}: {kind}, {length} bytes, time {}\n", date::shown(*time));
        }
        if self.removed > 0 {
            text += &format!("{} bytes behind the old end {are} gone{}\n", self.removed, saved(done));
        }
        if done.dry_run {
            text += "nothing is written\n";
        }
        text
    }

    pub fn json(&self, done: &Done) -> Json {
        let Appended { end, id, count } = self.appended;
        let retired = |(entry, time): &(Entry, u64)| {
            Json::Object(vec![
                ("id", Json::Number(entry.id)),
                ("type", Json::Number(entry.kind.into())),
                ("name", Json::text(type_name(entry.kind))),
                ("length", Json::Number(entry.length)),
                ("time", Json::Number(*time)),
            ])
        };
        let mut members = vec![
            ("segments", Json::numbers(self.ids())),
            ("manifest", Json::Number(id)),
            ("entries", Json::Number(count)),
            ("end", Json::Number(end)),
            ("retired", Json::numbers(self.retired.iter().map(|(entry, _)| entry.id))),
            ("retired_segments", Json::List(self.retired.iter().map(retired).collect())),
            ("removed", Json::Number(self.removed as u64)),
            ("time", Json::Number(self.time)),
        ];
        members.extend(done.saved.as_ref().map(|path| ("saved", Json::text(path.display().to_string()))));
        members.extend(self.room().map(|room| ("left", room.json())));
        members.extend(done.dry_run.then_some(("dry_run", Json::True)));
        Json::Object(members)
    }
}

fn saved(done: &Done) -> String {
    done.saved.as_ref().map_or(String::new(), |path| format!("; they are saved in {}", path.display()))
}
