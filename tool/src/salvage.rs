//! `rvf salvage`: every segment that is whole, written to a new file.

use crate::append::now;
use crate::date;
use crate::failure::{Failure, Refused, DONE, FAULTS};
use crate::files::read_store;
use crate::first::{create, must_be_free};
use crate::json::Json;
use crate::list::state;
use crate::manifests::ENTRIES;
use crate::pieces::{find, Found, Piece};
use crate::rebuild::rebuilt;
use crate::refusals::{reading, Target};
use crate::walk::{content_hash, type_name, HEADER};
use crate::Answer;
use rvf::{Entry, Refusal, FILE_LIMIT};
use std::fmt::Write;
use std::path::Path;
use std::time::Duration;

/// A new file, what was found for it, and the id of its manifest.
pub struct Salvaged {
    pub new: Vec<u8>,
    pub found: Found,
    pub id: u64,
}

pub fn run(path: &Path, to: &Path, json: bool) -> Result<Answer, Failure> {
    must_be_free(to)?;
    let file = read_store(path)?;
    let salvaged = salvage(path, &file, to, now())?;
    create(to, &salvaged.new, Duration::ZERO)?;
    let report = Report { salvaged: &salvaged, file: &file, to };
    let status = if report.complete() { DONE } else { FAULTS };
    Ok(Answer::of(json, || report.json(), || report.text(path)).with_status(status))
}

/// What is whole in a file, as a file of its own.
pub fn salvage(path: &Path, file: &[u8], to: &Path, time: u64) -> Result<Salvaged, Failure> {
    let lost = rvf::lost_behind(file).map_err(|refusal| reading(path, file, Target::Directory, refusal))?;
    let found = find(file, &lost.map_or(Vec::new(), |lost| lost.manifests));
    if found.kept.is_empty() {
        let what = format!("{}: no segment in it is whole, so there is nothing to save", path.display());
        return Err(Failure::Lost(vec![
            what,
            format!("next: take a copy from elsewhere; {} is not written", to.display()),
        ]));
    }
    let id = found.highest_id.and_then(|id| id.checked_add(1));
    let id = id.ok_or_else(|| {
        Refused::of(to, Refusal::IdsUsedUp).why("a segment has the last id; no manifest can follow it")
    })?;
    let new = rebuilt(file, &found.kept, id, time);
    must_be_right(to, &new, &found, id)?;
    Ok(Salvaged { new, found, id })
}

/// What is to be written keeps the limits, opens, and has the segments that were found.
fn must_be_right(to: &Path, new: &[u8], found: &Found, id: u64) -> Result<(), Failure> {
    let count = found.kept.len();
    if count > ENTRIES {
        let why = format!("{count} segments are whole, a directory has at most {ENTRIES}");
        return Err(Refused::of(to, Refusal::DirectoryFull).why(why).into());
    }
    if new.len() > FILE_LIMIT {
        let why = format!("what is whole takes {} bytes with a manifest, a file has at most {FILE_LIMIT}", new.len());
        return Err(Refused::of(to, Refusal::FileTooLong).why(why).into());
    }
    let entries = rvf::entries(new).map_err(|refusal| Failure::from(Refused::of(to, refusal)))?;
    // The payload of a reserved type is not handed out; its hash is looked at here.
    let whole = |entry: &Entry| match rvf::payload(new, entry.id) {
        Err(Refusal::ReservedType) => entry.hash == content_hash(&new[entry.offset as usize + HEADER..][..entry.length as usize]),
        answer => answer.is_ok(),
    };
    let same = entries.iter().zip(&found.kept).all(|(entry, piece)| {
        let fields = (entry.id, entry.kind, entry.flags, entry.retired, entry.hash, entry.length);
        fields == (piece.id, piece.kind, piece.flags, piece.retired, piece.hash, piece.length as u64)
            && (piece.retired || whole(entry))
    });
    let right = same && entries.len() == count && rvf::open(new).is_ok_and(|manifest| manifest.id == id);
    if right {
        Ok(())
    } else {
        Err(Failure::Io(format!("{}: what was put together does not read back; it is not written", to.display())))
    }
}

/// What became of each segment.
struct Report<'a> {
    salvaged: &'a Salvaged,
    file: &'a [u8],
    to: &'a Path,
}

impl Report<'_> {
    /// The segments that no whole manifest speaks of: whether they are live, it cannot say.
    fn unstated(&self) -> usize {
        let end = self.salvaged.found.states.map_or(0, |(_, end)| end);
        self.salvaged.found.kept.iter().filter(|piece| piece.offset >= end).count()
    }

    /// Whether every segment is there, with its state.
    fn complete(&self) -> bool {
        self.salvaged.found.lost.is_empty() && self.salvaged.found.unread.is_empty() && self.unstated() == 0
    }

    fn text(&self, path: &Path) -> String {
        let Found { kept, lost, manifests, states, unread, .. } = &self.salvaged.found;
        let mut text = String::new();
        for piece in kept {
            let _ = writeln!(text, "kept  {}, time {}", words(piece), date::shown(piece.time));
        }
        for (piece, why) in lost {
            let _ = writeln!(text, "LOST  {}: {why}", words(piece));
        }
        let unstated = self.unstated();
        if unstated > 0 {
            let _ = writeln!(text, "{unstated} of these are in no directory that is whole, and taken as live");
        }
        if !unread.is_empty() {
            let ids = unread.iter().map(u64::to_string).collect::<Vec<_>>().join(", ");
            let states = states.map_or("all are live".to_string(), |(id, _)| format!("states are of manifest {id}"));
            let _ = writeln!(text, "damaged directory of manifest {ids}: what it retired is not known; {states}");
        }
        let bytes = self.file.len();
        let _ = writeln!(
            text,
            "{}: {} kept and {} lost of {bytes} bytes; {manifests} old manifests left out",
            path.display(),
            kept.len(),
            lost.len()
        );
        let _ = writeln!(
            text,
            "{}: written, with manifest {}; {} bytes",
            self.to.display(),
            self.salvaged.id,
            self.salvaged.new.len()
        );
        text
    }

    fn json(&self) -> Json {
        let lost = |(piece, why): &(Piece, String)| {
            let mut members = members(piece);
            members.push(("why", Json::text(why)));
            Json::Object(members)
        };
        Json::Object(vec![
            ("kept", Json::List(self.salvaged.found.kept.iter().map(|piece| Json::Object(members(piece))).collect())),
            ("lost", Json::List(self.salvaged.found.lost.iter().map(lost).collect())),
            ("states", Json::maybe(self.salvaged.found.states.map(|(id, _)| id))),
            ("unstated", Json::Number(self.unstated() as u64)),
            ("unread", Json::numbers(self.salvaged.found.unread.iter().copied())),
            ("manifests", Json::Number(self.salvaged.found.manifests as u64)),
            ("to", Json::text(self.to.display().to_string())),
            ("manifest", Json::Number(self.salvaged.id)),
            ("end", Json::Number(self.salvaged.new.len() as u64)),
        ])
    }
}

fn words(piece: &Piece) -> String {
    let Piece { id, kind, offset, length, retired, .. } = *piece;
    format!("segment {id} ({}, {}) at byte {offset}: {length} bytes", type_name(kind), state(retired))
}

fn members(piece: &Piece) -> Vec<(&'static str, Json)> {
    vec![
        ("id", Json::Number(piece.id)),
        ("type", Json::Number(piece.kind.into())),
        ("name", Json::text(type_name(piece.kind))),
        ("offset", Json::Number(piece.offset as u64)),
        ("length", Json::Number(piece.length as u64)),
        ("state", Json::text(state(piece.retired))),
        ("time", Json::Number(piece.time)),
    ]
}
