//! Batches that are lost behind the end of the file's manifest: where the chain breaks, what
//! lies behind, and the words that keep an old position from being taken for the present one.

use crate::failure::Failure;
use crate::json::Json;
use crate::manifests::doubt;
use crate::quote::quoted;
use crate::walk::{type_name, walk, Walk};
use rvf::{Lost, Refusal};
use std::path::Path;

/// What is lost, and the first byte and rule at which it was lost.
#[derive(Clone, Debug)]
pub struct Loss {
    pub lost: Lost,
    pub at: usize,
    pub why: String,
}

/// What is lost in a file, if anything is.
pub fn loss(file: &[u8]) -> Result<Option<Loss>, Refusal> {
    Ok(rvf::lost_behind(file)?.map(|lost| Loss::of(file, &walk(file), lost)))
}

impl Loss {
    pub fn of(file: &[u8], walk: &Walk, lost: Lost) -> Loss {
        let (at, why) = first_break(file, walk, &lost);
        Loss { lost, at, why }
    }

    /// What lies behind the end.
    pub fn what(&self) -> String {
        let Lost { end, bytes, manifests } = &self.lost;
        let newest = match (manifests.last(), manifests.len()) {
            (None, _) => "more than any batch has".to_string(),
            (Some(newest), 1) => format!("manifest {} at byte {} among them", newest.id, newest.offset),
            (Some(newest), many) => {
                format!("{many} manifests among them, the newest is manifest {} at byte {}", newest.id, newest.offset)
            }
        };
        format!("{bytes} bytes behind byte {end} are lost, not cut short: {newest}")
    }

    /// What a command says that would answer or write as if nothing were lost.
    fn lines(&self, path: &Path, meaning: &str) -> Vec<String> {
        let (file, what) = (path.display(), self.what());
        vec![
            format!("{file}: {what}"),
            format!("the chain breaks at byte {}: {}", self.at, self.why),
            meaning.to_string(),
        ]
    }

    fn failure(&self, path: &Path, meaning: &str, option: &str) -> Failure {
        let mut lines = self.lines(path, meaning);
        let file = quoted(path);
        lines.push(format!("next: 'rvf check {file}' says more; 'rvf salvage {file} NEW' saves what is whole"));
        lines.push(option.to_string());
        Failure::Lost(lines)
    }

    /// No position is handed out.
    pub fn unanswered(&self, path: &Path) -> Failure {
        let option = "or --accept-older, which answers from before the break";
        self.failure(path, "what the file answers may be old", option)
    }

    /// Nothing is written: what the command would do to what lies behind, and what it may be told.
    pub fn unwritten(&self, path: &Path, would: &str, option: &str) -> Failure {
        self.failure(path, &format!("{would} what lies behind; nothing is written"), option)
    }

    /// The lines for standard error where the older answer is accepted.
    pub fn warning(&self, path: &Path) -> String {
        Failure::Lost(self.lines(path, "this answer may be old")).messages()
    }

    pub fn json(&self) -> Json {
        let newest = self.lost.newest();
        Json::Object(vec![
            ("manifest", Json::maybe(newest.map(|newest| newest.id))),
            ("offset", Json::maybe(newest.map(|newest| newest.offset))),
            ("manifests", Json::Number(self.lost.manifests.len() as u64)),
            ("end", Json::Number(self.lost.end)),
            ("bytes", Json::Number(self.lost.bytes)),
            ("breaks", Json::Number(self.at as u64)),
            ("why", Json::text(&self.why)),
        ])
    }
}

/// The first manifest behind the end that is a link and not confirmed, else the place where
/// the chain stops: whichever comes first has lost what lies behind it.
fn first_break(file: &[u8], walk: &Walk, lost: &Lost) -> (usize, String) {
    let behind = walk.links.iter().enumerate().filter(|(_, link)| link.offset as u64 >= lost.end);
    for (index, link) in behind {
        let id = link.id;
        if link.kind != rvf::MANIFEST {
            if lost.manifests.binary_search_by_key(&(link.offset as u64), |manifest| manifest.offset).is_ok() {
                let why = format!(
                    "segment {id} has the type {} ({}), and a manifest's root",
                    link.kind,
                    type_name(link.kind)
                );
                return (link.offset + 5, why);
            }
        } else if let Some(doubt) = doubt(file, link, &walk.links[..index]) {
            return (link.offset, format!("segment {id} (MANIFEST) is no confirmed manifest: {doubt}"));
        }
    }
    (walk.why.byte(walk.stopped), walk.why.to_string())
}
