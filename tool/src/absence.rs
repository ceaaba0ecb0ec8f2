//! Why a file has no manifest: it may be empty, no RVF file at all, hold a first batch that
//! was cut, or be damaged. Only what was never accepted may be removed.

use crate::lost::Loss;
use crate::quote::quoted;
use crate::walk::{Stop, Walk};
use rvf::FILE_LIMIT;
use std::path::Path;

#[derive(Clone, Debug, PartialEq, Eq)]
pub enum Absence {
    Empty,
    /// It begins with other bytes than an RVF file does.
    Foreign {
        front: Vec<u8>,
    },
    /// A first batch that was cut at the file's end.
    Cut {
        length: usize,
    },
    /// The byte and the rule at which the chain breaks, and what is lost behind it.
    Damaged {
        first_header: bool,
        at: usize,
        why: String,
        lost: Option<String>,
    },
}

impl Absence {
    pub fn of(file: &[u8], walk: &Walk, loss: Option<&Loss>) -> Absence {
        let first_header = walk.links.is_empty();
        let rest = &file[walk.stopped..];
        // As far as there are bytes, they begin a header.
        let begins = rest.iter().zip(b"RVFS").all(|(one, other)| one == other);
        let foreign = first_header && !begins && loss.is_none_or(|loss| loss.lost.manifests.is_empty());
        match (walk.why, loss) {
            _ if file.is_empty() => Absence::Empty,
            _ if foreign => Absence::Foreign { front: file[..file.len().min(4)].to_vec() },
            (_, Some(loss)) => {
                Absence::Damaged { first_header, at: loss.at, why: loss.why.clone(), lost: Some(loss.what()) }
            }
            (Stop::FileEnd, None) => Absence::Cut { length: file.len() },
            (Stop::Room { .. }, None) if begins => Absence::Cut { length: file.len() },
            (Stop::PastEnd { end, .. }, None) if end <= FILE_LIMIT as u128 => Absence::Cut { length: file.len() },
            (why, None) => Absence::Damaged { first_header, at: why.byte(walk.stopped), why: why.to_string(), lost: None },
        }
    }

    pub fn what(&self) -> String {
        match self {
            Absence::Empty => "the file is empty".to_string(),
            Absence::Foreign { front } => {
                let front: Vec<String> = front.iter().map(|byte| format!("{byte:02x}")).collect();
                format!("this is not an RVF file: it begins with {}, not 52 56 46 53", front.join(" "))
            }
            Absence::Cut { length } => {
                format!("it holds a first batch that was cut at byte {length}; nothing was in the store before")
            }
            Absence::Damaged { first_header, at, why, lost } => {
                let what = if *first_header { "its first header is damaged" } else { "it is damaged" };
                let lost = lost.as_ref().map_or(String::new(), |words| format!("; {words}"));
                format!("{what}: the chain breaks at byte {at}: {why}{lost}")
            }
        }
    }

    pub fn next(&self, path: &Path) -> String {
        let file = quoted(path);
        match self {
            Absence::Empty => format!("'rvf append {file} BATCH' starts a store in it"),
            Absence::Foreign { .. } => "name another file; this one is left as it is".to_string(),
            Absence::Cut { .. } => format!("remove it and append the batch again: 'rvf append {file} BATCH --create'"),
            Absence::Damaged { .. } => {
                format!("keep it; 'rvf salvage {file} NEW' saves what is whole, or take a copy from elsewhere")
            }
        }
    }
}
