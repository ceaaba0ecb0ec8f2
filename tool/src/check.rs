//! What is wrong with a file. A fault makes calls refuse, or answer from before batches that
//! are lost; a remark does neither, but for a reserved type, whose payload never leaves.

use crate::absence::Absence;
use crate::lost::Loss;
use crate::manifests::{doubt, Doubt};
use crate::room::{back, Room};
use crate::walk::{reserved_type, type_name, walk, Link, Walk};
use rvf::{Entry, Manifest, OpenRefused, Refusal};

#[derive(Clone, Copy, Debug, PartialEq, Eq)]
pub enum Weight {
    Fault,
    Remark,
}

#[derive(Clone, Debug)]
pub struct Finding {
    pub weight: Weight,
    /// Where in the file.
    pub offset: usize,
    /// The id of the segment, where it is about one.
    pub segment: Option<u64>,
    /// The number with which calls refuse because of it.
    pub refusal: Option<Refusal>,
    pub what: String,
    /// What it means for those who read, in lines.
    pub effect: String,
}

/// A file looked through.
#[derive(Clone, Debug)]
pub struct Checked {
    pub length: usize,
    pub walk: Walk,
    /// The file's manifest and its directory.
    pub manifest: Option<(Manifest, Vec<Entry>)>,
    /// Batches behind the manifest's end that are lost, not cut short.
    pub loss: Option<Loss>,
    /// Why there is no manifest, where there is none.
    pub absence: Option<Absence>,
    /// In the order of their offsets.
    pub findings: Vec<Finding>,
    /// What is left where room is scarce, and what a compaction brings back.
    pub room: Option<(Room, Room)>,
}

impl Checked {
    /// Whether the segment with an id has a reserved type, which no batch brings.
    pub fn reserved(&self, id: u64) -> bool {
        self.walk.links.iter().any(|link| link.id == id && reserved_type(link.kind))
    }

    pub fn count(&self, weight: Weight) -> usize {
        self.findings.iter().filter(|finding| finding.weight == weight).count()
    }
}

/// Looks through a file. Only a file above the limit is refused.
pub fn check(file: &[u8]) -> Result<Checked, Refusal> {
    let manifest = match rvf::open(file) {
        Ok(manifest) => Some((manifest, rvf::entries(file)?)),
        Err(OpenRefused { refusal: Refusal::NoManifest, .. }) => None,
        Err(refused) => return Err(refused.refusal),
    };
    let walk = walk(file);
    let loss = rvf::lost_behind(file)?.map(|lost| Loss::of(file, &walk, lost));
    let absence = manifest.is_none().then(|| Absence::of(file, &walk, loss.as_ref()));
    let mut findings = match (&manifest, &absence) {
        (Some((manifest, entries)), _) => {
            // The directory is all links before the manifest.
            let mut findings = of_directory(file, &walk.links, entries);
            findings.extend(behind(file, &walk.links, manifest, loss.as_ref()));
            findings
        }
        (None, Some(absence)) => without_manifest(file, &walk, absence),
        (None, None) => Vec::new(),
    };
    // What is behind the end of the file's manifest is lost or cut, and said to be so.
    let end = manifest.as_ref().map_or(usize::MAX, |(manifest, _)| manifest.end as usize);
    findings.extend(unconfirmed(file, &walk.links, end));
    findings.sort_by_key(|finding| finding.offset);
    let room = manifest.as_ref().and_then(|(manifest, entries)| {
        Some((Room::scarce(manifest.count, manifest.end)?, back(manifest, entries)))
    });
    Ok(Checked { length: file.len(), walk, manifest, loss, absence, findings, room })
}

/// What a segment's content breaks, in the order in which calls look at it.
pub fn damage(file: &[u8], link: &Link) -> Option<Refusal> {
    if !link.whole(file) {
        return Some(Refusal::ContentHash);
    }
    if link.kind == rvf::VEC { rvf::check_vectors(link.payload(file)).err() } else { None }
}

fn of_directory(file: &[u8], links: &[Link], entries: &[Entry]) -> Vec<Finding> {
    let mut findings = Vec::new();
    let mut search = Search::default();
    // A search for a vector goes from the newest segment to the oldest. Older manifests are
    // looked at elsewhere: no call but that for their own payload depends on them.
    let segments = links.iter().zip(entries).filter(|(link, _)| link.kind != rvf::MANIFEST);
    for (link, entry) in segments.rev() {
        let damage = damage(file, link);
        if entry.retired {
            let effect = || "the segment is retired, so no call reads it".to_string();
            findings.extend(damage.map(|refusal| about(link, "retired", Weight::Remark, refusal, effect())));
        } else {
            let effect = search.effect(link, damage);
            findings.extend(damage.map(|refusal| about(link, "live", Weight::Fault, refusal, effect)));
            findings.extend((damage.is_none() && reserved_type(link.kind)).then(|| carried(link)));
        }
    }
    findings
}

/// How far a search for a vector gets, from the newest live segment of vectors on.
#[derive(Default)]
struct Search {
    any_newer: bool,
    first_bad: Option<u64>,
}

impl Search {
    /// What a live segment's damage means, and the step to the next older one.
    fn effect(&mut self, link: &Link, damage: Option<Refusal>) -> String {
        let Some(refusal) = damage else {
            self.any_newer |= link.kind == rvf::VEC;
            return String::new();
        };
        let number = refusal.number();
        let payload = match refusal {
            Refusal::ContentHash if reserved_type(link.kind) => "compacting the file refuses 4; reading its payload refuses 15, damaged or not",
            Refusal::ContentHash => "reading its payload refuses 4",
            _ => "",
        };
        if link.kind != rvf::VEC {
            return payload.to_string();
        }
        let search = match self.first_bad {
            Some(newer) => {
                format!(
                    "searches for a vector stop at segment {newer}; without that one they would refuse {number} here"
                )
            }
            None if self.any_newer => {
                format!("every search for a vector that no newer segment holds refuses {number}; nothing older is answered")
            }
            None => {
                format!("every search for a vector refuses {number}, since this is the newest live segment of vectors")
            }
        };
        self.first_bad = self.first_bad.or(Some(link.id));
        self.any_newer = true;
        if payload.is_empty() { search } else { format!("{payload}; {search}") }
    }
}

fn about(link: &Link, state: &str, weight: Weight, refusal: Refusal, effect: String) -> Finding {
    let what = format!("segment {} ({}, {state}): {}", link.id, type_name(link.kind), broken(refusal));
    let refused = (weight == Weight::Fault).then_some(refusal);
    Finding { weight, offset: link.offset, segment: Some(link.id), refusal: refused, what, effect }
}

/// A live segment of a type that this store knows nothing of.
fn carried(link: &Link) -> Finding {
    let what = format!("segment {} (reserved, live): its type 0x{:02x} is reserved", link.id, link.kind);
    let effect = "reading its payload refuses 15; a compaction copies it, and it may be retired".to_string();
    Finding { weight: Weight::Remark, offset: link.offset, segment: Some(link.id), refusal: None, what, effect }
}

pub fn broken(refusal: Refusal) -> &'static str {
    match refusal {
        Refusal::ContentHash => "its content hash differs",
        Refusal::Dtype => "a block has a dtype that is not one of f32, i8, u8",
        Refusal::BlockChecksum => "a block's checksum differs",
        _ => "the layout or an id map of its vectors breaks a rule",
    }
}

/// What lies behind the manifest's end: lost batches, or one that was cut short.
fn behind(file: &[u8], links: &[Link], manifest: &Manifest, loss: Option<&Loss>) -> Option<Finding> {
    let end = manifest.end as usize;
    let bytes = file.len() - end;
    if bytes == 0 {
        return None;
    }
    if let Some(loss) = loss {
        let what = format!("the chain breaks: {}", loss.why);
        let (lost, id) = (loss.what(), manifest.id);
        let effect = format!("{lost}\nwhat manifest {id} answers may be old: get, append, retire and compact stop here");
        return Some(Finding { weight: Weight::Fault, offset: loss.at, segment: None, refusal: None, what, effect });
    }
    let links = match links.iter().filter(|link| link.offset >= end).count() {
        0 => "no complete segment".to_string(),
        1 => "1 complete segment".to_string(),
        many => format!("{many} complete segments"),
    };
    let what = format!("{bytes} bytes lie behind the manifest's end, as a batch cut short leaves them: {links}");
    let effect = "no call reads them; the next append takes their place".to_string();
    Some(Finding { weight: Weight::Remark, offset: end, segment: None, refusal: None, what, effect })
}

/// Without a manifest nothing is live: the one fault is its absence.
fn without_manifest(file: &[u8], walk: &Walk, absence: &Absence) -> Vec<Finding> {
    let effect = match absence {
        Absence::Empty => "every reading call refuses 2 until a batch is appended",
        _ => "every reading call and every append refuses 2",
    };
    let (what, effect) = (format!("no confirmed manifest: {}", absence.what()), effect.to_string());
    let refusal = Some(Refusal::NoManifest);
    let absent = Finding { weight: Weight::Fault, offset: walk.stopped, segment: None, refusal, what, effect };
    let effect = || "without a manifest no call reads it".to_string();
    // What is wrong with a manifest is said where manifests are looked at.
    let others = walk.links.iter().filter(|link| link.kind != rvf::MANIFEST);
    let damaged = others.filter_map(|link| {
        damage(file, link).map(|refusal| about(link, "in no directory", Weight::Remark, refusal, effect()))
    });
    damaged.chain([absent]).collect()
}

/// The segments of type 5 before a place that are not confirmed. Each batch brings a manifest
/// of all segments, so an older one that is damaged is missed by nobody.
fn unconfirmed(file: &[u8], links: &[Link], end: usize) -> Vec<Finding> {
    let manifests = links.iter().enumerate().filter(|(_, link)| link.kind == rvf::MANIFEST && link.offset < end);
    let doubts = manifests.filter_map(|(index, link)| Some((link, doubt(file, link, &links[..index])?)));
    let finding = |(link, doubt): (&Link, Doubt)| Finding {
        weight: Weight::Remark,
        offset: link.offset,
        segment: Some(link.id),
        refusal: None,
        what: format!("segment {} (MANIFEST) is no confirmed manifest: {doubt}", link.id),
        effect: match doubt {
            Doubt::Hash => "reading its payload refuses 4; nothing else depends on it".to_string(),
            _ => "opening takes no notice of it".to_string(),
        },
    };
    doubts.map(finding).collect()
}
