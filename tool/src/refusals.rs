//! Refusals of the reading calls: which segment or id, where, and what to do next.

use crate::absence::Absence;
use crate::check::{broken, damage};
use crate::failure::{Failure, Refused};
use crate::files::too_long;
use crate::lost::loss;
use crate::quote::quoted;
use crate::room::kept;
use crate::walk::{reserved_type, type_name, walk, Link};
use rvf::{Entry, Refusal};
use std::path::Path;

/// What a reading call was told to find.
#[derive(Clone, Copy, Debug)]
pub enum Target {
    Directory,
    Vector(u64),
    Component { id: u64, index: u64 },
    Segment(u64),
}

pub fn reading(path: &Path, file: &[u8], target: Target, refusal: Refusal) -> Failure {
    let refused = Refused::of(path, refusal);
    match (refusal, target) {
        (Refusal::FileTooLong, _) => too_long(path, file.len() as u64),
        (Refusal::NoManifest, _) => absent(path, file, refused),
        (Refusal::NotLive, Target::Segment(id)) => not_live(path, file, id, refused),
        (Refusal::ReservedType, Target::Segment(id)) => reserved(path, file, id, refused),
        (Refusal::NoVector, Target::Vector(id) | Target::Component { id, .. }) => {
            no_vector(path, file, id, target, refused)
        }
        _ => match bad_segment(file, target, refusal) {
            Some(link) => refused.why(bad(&link, refusal)).next(bad_next(path, &link)),
            None => refused.next(format!("'rvf check {}' says what is wrong, and where", quoted(path))),
        },
    }
    .into()
}

/// A compaction refused: a copy would carry damage on, so every segment to be copied must be whole.
pub fn compacting(path: &Path, file: &[u8], refusal: Refusal) -> Failure {
    let links = walk(file).links;
    let entries = rvf::entries(file).unwrap_or_default();
    let copied = links.iter().zip(&entries).filter(|(_, entry)| kept(entry)).map(|(link, _)| link);
    let damaged: Vec<&Link> = copied.filter(|link| !link.whole(file)).collect();
    let (Refusal::ContentHash, [first, more @ ..]) = (refusal, &damaged[..]) else {
        return reading(path, file, Target::Directory, refusal);
    };
    let more = match more.len() {
        0 => String::new(),
        count => format!("; {count} more are damaged: 'rvf check {}' names them", quoted(path)),
    };
    let (append, retire) = mending(path, damaged.iter().map(|link| link.id));
    let why = format!("{}{more}", bad(first, refusal));
    let next = if damaged.iter().all(|link| reserved_type(link.kind)) {
        format!("no batch brings a reserved type, so retire what is bad: '{retire}'; then compact")
    } else {
        format!("append the batch again: '{append}', or only retire what is bad: '{retire}'; then compact")
    };
    Refused::of(path, refusal).why(why).next(next).into()
}

/// The two commands that put an end to damage in segments: the first brings the present
/// position back, the second an older one.
pub fn mending(path: &Path, ids: impl Iterator<Item = u64> + Clone) -> (String, String) {
    let file = quoted(path);
    let words = |before: &str| ids.clone().map(|id| format!("{before}{id}")).collect::<String>();
    (format!("rvf append {file} BATCH{}", words(" --retire ")), format!("rvf retire {file}{}", words(" ")))
}

/// Why a file has no manifest.
pub fn absent(path: &Path, file: &[u8], refused: Refused) -> Refused {
    let loss = loss(file).ok().flatten();
    let absence = Absence::of(file, &walk(file), loss.as_ref());
    refused.why(absence.what()).next(absence.next(path))
}

fn not_live(path: &Path, file: &[u8], id: u64, refused: Refused) -> Refused {
    let path = quoted(path);
    let manifest = rvf::open(file).ok().map(|manifest| manifest.id);
    let why = match entry(file, id) {
        Some(entry) => format!("segment {id} ({}, {} bytes) is retired", type_name(entry.kind), entry.length),
        None if manifest == Some(id) => {
            format!("segment {id} is the file's own manifest, which is no entry of its directory")
        }
        None => format!("no segment has the id {id}"),
    };
    let listed = format!("'rvf list {path}' shows the segments and their states");
    let next = if rvf::vector(file, id).is_ok() {
        format!("'rvf get {path} {id}' gets the vector {id}; {listed}")
    } else {
        listed
    };
    refused.why(why).next(next)
}

/// A segment of a type that this store knows nothing of is carried, not handed out.
fn reserved(path: &Path, file: &[u8], id: u64, refused: Refused) -> Refused {
    let path = quoted(path);
    let why = entry(file, id).map(|entry| {
        let Entry { kind, length, offset, .. } = entry;
        format!("segment {id} ({length} bytes) at byte {offset} is of type 0x{kind:02x}")
    });
    refused
        .why(why.unwrap_or_default())
        .next(format!("'rvf list {path}' lists it, a compaction copies it, 'rvf retire {path} {id}' retires it"))
}

fn no_vector(path: &Path, file: &[u8], id: u64, target: Target, refused: Refused) -> Refused {
    let path = quoted(path);
    if let (Target::Component { index, .. }, Ok(vector)) = (target, rvf::vector(file, id)) {
        let dim = vector.components().count();
        let why = format!("vector {id} has {dim} components, 0 to {}; {index} is none of them", dim - 1);
        return Refused { meaning: "the vector has no such component", ..refused }
            .why(why)
            .next("name one that it has");
    }
    let why = format!("no live segment of vectors holds the id {id}");
    let refused = Refused { meaning: "there is no such vector", ..refused };
    match entry(file, id) {
        Some(entry) => {
            let (kind, length) = (type_name(entry.kind), entry.length);
            let next = format!("'rvf get {path} --segment {id}' gets the segment, if it is live");
            refused
                .why(format!("{why}; segment {id} ({kind}, {length} bytes) has it, and a segment is no vector"))
                .next(next)
        }
        None => refused.why(why).next(format!("'rvf list {path}' shows the segments; those of type VEC hold vectors")),
    }
}

/// The entry of the directory with a segment's id.
pub fn entry(file: &[u8], id: u64) -> Option<Entry> {
    rvf::entries(file).ok()?.into_iter().find(|entry| entry.id == id)
}

/// The segment that a refusal by 4 to 7 is about: the one that was to be read, or the first
/// bad one in the order in which vectors are searched.
fn bad_segment(file: &[u8], target: Target, refusal: Refusal) -> Option<Link> {
    let entries = rvf::entries(file).ok()?;
    let links = walk(file).links;
    let mut newest_first = links.into_iter().zip(entries).rev();
    let bad = newest_first.find(|(link, entry)| match target {
        Target::Segment(id) => entry.id == id,
        _ => !entry.retired && link.kind == rvf::VEC && damage(file, link) == Some(refusal),
    });
    bad.map(|(link, _)| link)
}

fn bad(link: &Link, refusal: Refusal) -> String {
    format!("segment {} ({}) at byte {}: {}", link.id, type_name(link.kind), link.offset, broken(refusal))
}

/// The way that brings the present position back; the check tells the one that brings an older.
fn bad_next(path: &Path, link: &Link) -> String {
    let (file, id) = (quoted(path), link.id);
    match link.kind {
        rvf::MANIFEST => format!("an older manifest is read by nothing else; 'rvf check {file}' says more"),
        _ => format!("append the batch again: 'rvf append {file} BATCH --retire {id}'; 'rvf check {file}' says more"),
    }
}
