//! What the program `rvf` does, as a library: the tests call its parts.
//!
//! Every answer about a file comes from the store's library, through the binding. The
//! tool adds what stands around it: words and exit statuses, files that are read up to
//! the limit and no further, writing that a power cut cannot spoil (`commit`, `beside`), a
//! walk through a file that says why it stops (`walk`, `manifests`, `check`), and a stop
//! where the library's answer is right and may be old (`lost`).

pub mod absence;
pub mod append;
pub mod append_refusals;
pub mod args;
pub mod batch;
pub mod beside;
pub mod check;
pub mod commit;
pub mod compact;
pub mod date;
pub mod failure;
pub mod files;
pub mod first;
pub mod fresh;
pub mod get;
pub mod held;
pub mod help;
pub mod json;
pub mod list;
pub mod lock;
pub mod lost;
pub mod manifests;
pub mod pieces;
pub mod plan;
pub mod quote;
pub mod rebuild;
pub mod refusals;
pub mod report;
pub mod room;
pub mod rounding;
pub mod salvage;
pub mod text;
pub mod walk;
pub mod words;

use args::Command;
use failure::{Failure, DONE};
use json::Json;
use std::ffi::OsString;
use std::io::Read;
use std::path::{Path, PathBuf};

/// What a run leaves: bytes for standard output, text for standard error, the status.
#[derive(Debug)]
pub struct Outcome {
    pub output: Vec<u8>,
    pub messages: String,
    pub status: u8,
}

/// What a command answers: bytes to print, what to say beside them, and the status where
/// that is not 0.
pub struct Answer {
    pub output: Vec<u8>,
    pub messages: String,
    pub status: u8,
}

impl Answer {
    /// The answer of a command that has done its work: JSON if so wished, else text.
    pub fn of(json: bool, value: impl FnOnce() -> Json, text: impl FnOnce() -> String) -> Answer {
        let output = if json { format!("{}\n", value()) } else { text() };
        Answer { output: output.into_bytes(), messages: String::new(), status: DONE }
    }

    /// The same with lines for standard error.
    pub fn saying(self, messages: String) -> Answer {
        Answer { messages, ..self }
    }

    pub fn with_status(self, status: u8) -> Answer {
        Answer { status, ..self }
    }
}

/// Runs the program on its words; `stdin` is read only where `-` is given for an input.
pub fn run(words: Vec<OsString>, stdin: &mut dyn Read) -> Outcome {
    let (json, quiet) = (words::wishes(&words, "--json"), words::wishes(&words, "--quiet"));
    match args::parse(words).and_then(|command| perform(&command, json, stdin)) {
        Ok(Answer { output, messages, status }) => {
            Outcome { output: if quiet { Vec::new() } else { output }, messages, status }
        }
        Err(failure) => Outcome {
            output: if json { format!("{}\n", failure.json()).into_bytes() } else { Vec::new() },
            messages: failure.messages(),
            status: failure.status(),
        },
    }
}

fn perform(command: &Command, json: bool, stdin: &mut dyn Read) -> Result<Answer, Failure> {
    match command {
        Command::Help(topic) => Ok(help::answer(*topic, json)),
        Command::Version => Ok(help::version(json)),
        Command::List(files) => each(files, json, |file| list::run(file, json, files.len() > 1)),
        Command::Check(files) => each(files, json, |file| report::run(file, json)),
        Command::Get(request) => get::run(request, json),
        Command::Append(request) => append::run(request, json, stdin),
        Command::Compact(request) => compact::run(request, json),
        Command::Salvage { file, to } => salvage::run(file, to, json),
    }
}

/// A command on several files: each has its answer, a failing one too, and the status is the
/// first that is not 0. In JSON the answers are a list.
fn each(files: &[PathBuf], json: bool, run: impl Fn(&Path) -> Result<Answer, Failure>) -> Result<Answer, Failure> {
    if let [file] = files {
        return run(file);
    }
    let (mut texts, mut values, mut messages, mut status) = (Vec::new(), Vec::new(), String::new(), DONE);
    for file in files {
        let answer = run(file).unwrap_or_else(|failure| {
            Answer::of(json, || failure.json(), String::new).saying(failure.messages()).with_status(failure.status())
        });
        let output = String::from_utf8_lossy(&answer.output).into_owned();
        let members = vec![
            ("file", Json::text(file.display().to_string())),
            ("answer", Json::Written(output.trim_end().to_string())),
        ];
        values.push(Json::Object(members));
        texts.extend((!output.is_empty()).then_some(output));
        messages += &answer.messages;
        status = if status == DONE { answer.status } else { status };
    }
    Ok(Answer::of(json, || Json::List(values), || texts.join("\n")).saying(messages).with_status(status))
}
