//! Why a run did not do what it was told, and the exit status that says so.

use crate::json::Json;
use rvf::Refusal;
use std::io::{self, ErrorKind};
use std::path::Path;

/// The exit statuses; 1 to 15 are the numbers of the refusals.
pub const DONE: u8 = 0;
pub const USAGE: u8 = 64;
pub const FAULTS: u8 = 65;
pub const NO_INPUT: u8 = 66;
pub const NO_OUTPUT: u8 = 73;
pub const IO: u8 = 74;
pub const BUSY: u8 = 75;

#[derive(Debug)]
pub enum Failure {
    /// Words that make no command.
    Usage(String),
    /// The store's library refused.
    Refused(Refused),
    /// Something is lost, so nothing is answered or written: what, where, and what to do next.
    Lost(Vec<String>),
    /// An input that cannot be read or understood.
    Input(String),
    /// Reading or writing broke off.
    Io(String),
    /// Another append holds the file.
    Busy(String),
}

/// A refusal: whose, which, where, and what to do next.
#[derive(Debug)]
pub struct Refused {
    pub subject: String,
    pub refusal: Refusal,
    pub meaning: &'static str,
    pub why: Option<String>,
    pub next: Option<String>,
}

impl Refused {
    pub fn new(subject: impl Into<String>, refusal: Refusal) -> Refused {
        Refused { subject: subject.into(), refusal, meaning: refusal.meaning(), why: None, next: None }
    }

    /// A refusal about a file.
    pub fn of(file: &Path, refusal: Refusal) -> Refused {
        Refused::new(file.display().to_string(), refusal)
    }

    pub fn why(self, words: impl Into<String>) -> Refused {
        Refused { why: Some(words.into()), ..self }
    }

    pub fn next(self, words: impl Into<String>) -> Refused {
        Refused { next: Some(words.into()), ..self }
    }
}

impl From<Refused> for Failure {
    fn from(refused: Refused) -> Failure {
        Failure::Refused(refused)
    }
}

impl Failure {
    /// An input that is not there or may not be read.
    pub fn unreadable(path: &Path, error: &io::Error) -> Failure {
        let why = match error.kind() {
            ErrorKind::NotFound => "no such file".to_string(),
            ErrorKind::PermissionDenied => "no permission to use it".to_string(),
            ErrorKind::IsADirectory => "is a directory; name a file".to_string(),
            _ => error.to_string(),
        };
        Failure::Input(format!("{}: {why}", path.display()))
    }

    /// Reading or writing a file broke off.
    pub fn broken(path: &Path, what: &str, error: &io::Error) -> Failure {
        Failure::Io(format!("{}: {what}: {error}", path.display()))
    }

    pub fn status(&self) -> u8 {
        match self {
            Failure::Usage(_) => USAGE,
            Failure::Refused(refused) => refused.refusal.number() as u8,
            Failure::Lost(_) => FAULTS,
            Failure::Input(_) => NO_INPUT,
            Failure::Io(_) => IO,
            Failure::Busy(_) => BUSY,
        }
    }

    /// The lines for standard error.
    pub fn messages(&self) -> String {
        match self {
            Failure::Usage(words) => format!("rvf: {words}\nrvf: see 'rvf help'\n"),
            Failure::Refused(Refused { subject, refusal, meaning, why, next }) => {
                let why = why.as_ref().map_or(String::new(), |words| format!("rvf: {words}\n"));
                let next = next.as_ref().map_or(String::new(), |words| format!("rvf: next: {words}\n"));
                format!("rvf: {subject}: refused {}: {meaning}\n{why}{next}", refusal.number())
            }
            Failure::Lost(lines) => lines.iter().map(|line| format!("rvf: {line}\n")).collect(),
            Failure::Input(words) | Failure::Io(words) | Failure::Busy(words) => format!("rvf: {words}\n"),
        }
    }

    /// The value for standard output where JSON is wished.
    pub fn json(&self) -> Json {
        let text = |words: &Option<String>| words.as_ref().map_or(Json::Null, Json::text);
        let error = |words: &str| {
            Json::Object(vec![("error", Json::text(words)), ("status", Json::Number(self.status().into()))])
        };
        match self {
            Failure::Refused(Refused { refusal, meaning, why, next, .. }) => Json::Object(vec![
                ("refused", Json::Number(refusal.number().into())),
                ("meaning", Json::text(*meaning)),
                ("why", text(why)),
                ("next", text(next)),
            ]),
            Failure::Lost(lines) => error(&lines.join("; ")),
            Failure::Usage(words) | Failure::Input(words) | Failure::Io(words) | Failure::Busy(words) => error(words),
        }
    }
}
