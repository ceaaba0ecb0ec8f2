//! Refusals of an append: whether FILE or BATCH is to blame, which id or line, and what next.

use crate::args::Append;
use crate::batch::{bodies, Body};
use crate::check::broken;
use crate::failure::{Failure, Refused};
use crate::manifests::{payload_length, ENTRIES};
use crate::quote::quoted;
use crate::refusals::{absent, entry};
use crate::room::{frees, segment};
use rvf::{Refusal, FILE_LIMIT};
use std::collections::HashSet;

/// An append that the library refused: the file and the batch as they were handed to it.
pub struct Attempt<'a> {
    pub request: &'a Append,
    pub file: &'a [u8],
    pub batch: &'a [u8],
}

impl Attempt<'_> {
    pub fn failure(&self, refusal: Refusal) -> Failure {
        let path = &self.request.file;
        let of_file = Refused::of(path, refusal);
        let of_batch = Refused::new(self.request.batch.name(), refusal);
        match refusal {
            Refusal::NoManifest => absent(path, self.file, of_file),
            Refusal::Batch => of_batch.why(self.rule()).next("the batch form stands in include/rvf.h, at rvf_append"),
            Refusal::Layout | Refusal::Dtype | Refusal::BlockChecksum => of_batch.why(self.bad_body(refusal)).next(
                "make the body again with the vector writer (rvf_vec_write, or --vectors TEXT); the file is as it was",
            ),
            Refusal::Retire => self.retire(of_file),
            Refusal::FileTooLong => of_file.why(self.too_long()).next(frees(path, self.file)),
            Refusal::DirectoryFull => of_file.why(self.too_many()).next(frees(path, self.file)),
            Refusal::IdsUsedUp => {
                of_file.why("the file's manifest has the last ids").next("start a new file with --create")
            }
            _ => of_file,
        }
        .into()
    }

    fn bodies(&self) -> Vec<Body> {
        bodies(self.batch).unwrap_or_default()
    }

    fn rule(&self) -> String {
        bodies(self.batch).err().unwrap_or_else(|| "it breaks a rule".to_string())
    }

    fn bad_body(&self, refusal: Refusal) -> String {
        let bodies = self.bodies();
        let check = |body: &Body| rvf::check_vectors(&self.batch[body.bytes.clone()]).err();
        let bad = bodies.iter().position(|body| body.kind == rvf::VEC && check(body) == Some(refusal));
        let place = |index: usize| format!("body {} at byte {}: ", index + 1, bodies[index].bytes.start);
        format!("{}{}", bad.map_or(String::new(), place), broken(refusal))
    }

    /// The first id of the list that cannot be retired, and which of the four reasons it has.
    fn retire(&self, refused: Refused) -> Refused {
        let file = quoted(&self.request.file);
        let mut seen = HashSet::new();
        let reason = self.request.retire.iter().find_map(|id| self.no_retiring(*id, seen.insert(*id)));
        let listed = format!("'rvf list {file}' shows the segments and their states");
        match reason {
            Some(why) => refused.why(why).next(listed),
            None => refused.next(listed),
        }
    }

    fn no_retiring(&self, id: u64, first: bool) -> Option<String> {
        let own = rvf::open(self.file).is_ok_and(|manifest| manifest.id == id);
        match entry(self.file, id) {
            _ if !first => Some(format!("segment {id} is listed twice")),
            Some(entry) if entry.kind == rvf::MANIFEST => {
                Some(format!("segment {id} is a manifest, which is never retired"))
            }
            Some(entry) if entry.retired => Some(format!("segment {id} is retired already")),
            Some(_) => None,
            None if own => Some(format!("segment {id} is the file's own manifest, which is never retired")),
            None if rvf::vector(self.file, id).is_ok() => Some(format!(
                "segment {id} is not in the directory; a vector has this id, and segments are retired, not vectors"
            )),
            None => Some(format!("segment {id} is not in the directory")),
        }
    }

    /// The entries that the directory would have.
    fn entries(&self) -> usize {
        // The old manifest becomes an entry too.
        let old = rvf::open(self.file).map_or(0, |manifest| manifest.count as usize + 1);
        old + self.bodies().len()
    }

    fn too_many(&self) -> String {
        format!("with this batch the directory would have {} entries, it has at most {ENTRIES}", self.entries())
    }

    fn too_long(&self) -> String {
        let start = rvf::open(self.file).map_or(0, |manifest| manifest.end as usize);
        let bodies: usize = self.bodies().iter().map(|body| segment(body.bytes.len())).sum();
        let end = start + bodies + segment(payload_length(self.entries()));
        format!("with this batch the file would have {end} bytes, it has at most {FILE_LIMIT}")
    }
}
