//! The commands, out of the words of the command line.

use crate::failure::Failure;
use crate::help;
use crate::words::{number, usage, Words, REPEATED};
use std::ffi::{OsStr, OsString};
use std::path::PathBuf;
use std::time::Duration;

#[derive(Debug)]
pub enum Command {
    /// The text about everything, or about one command.
    Help(Option<&'static str>),
    Version,
    List(Vec<PathBuf>),
    Check(Vec<PathBuf>),
    Get(Get),
    Append(Append),
    Compact(Compact),
    Salvage {
        file: PathBuf,
        to: PathBuf,
    },
}

#[derive(Debug)]
pub struct Get {
    pub file: PathBuf,
    pub wanted: Wanted,
    /// Whether an answer from before lost batches will do.
    pub accept_older: bool,
}

/// What is to be got out of a file.
#[derive(Debug)]
pub enum Wanted {
    Vector(u64),
    Component { id: u64, index: u64 },
    Segment { id: u64, to: Option<PathBuf> },
}

/// An append; `rvf retire` is one of an empty batch.
#[derive(Debug)]
pub struct Append {
    pub file: PathBuf,
    pub batch: Batch,
    pub retire: Vec<u64>,
    /// The timestamp, where one was named.
    pub time: Option<u64>,
    pub create: bool,
    pub writing: Writing,
}

/// A compaction: of a file in its place, or to a new one.
#[derive(Debug)]
pub struct Compact {
    pub file: PathBuf,
    pub to: Option<PathBuf>,
    pub writing: Writing,
}

/// What the commands that write a file share.
#[derive(Clone, Copy, Debug)]
pub struct Writing {
    pub dry_run: bool,
    /// Whether lost batches behind the end may be removed, once they are saved elsewhere.
    pub discard_tail: bool,
    /// How long to wait for another that holds the file.
    pub wait: Duration,
}

#[derive(Debug)]
pub enum Batch {
    Empty,
    /// Bytes in the batch form.
    Bytes(Source),
    /// Lines of text that become one segment of vectors.
    Vectors(Source, Reading),
}

impl Batch {
    /// What messages call it.
    pub fn name(&self) -> String {
        match self {
            Batch::Empty => "the empty batch".to_string(),
            Batch::Bytes(source) | Batch::Vectors(source, _) => source.name(),
        }
    }
}

/// How a text of vectors is read.
#[derive(Clone, Copy, Debug, Default)]
pub struct Reading {
    /// Whether a last line without a line feed is whole.
    pub no_final_newline: bool,
    /// Whether values that an f32 does not hold are rounded.
    pub round: bool,
}

#[derive(Debug)]
pub enum Source {
    Stdin,
    Path(PathBuf),
}

impl Source {
    /// What messages call it.
    pub fn name(&self) -> String {
        match self {
            Source::Stdin => "standard input".to_string(),
            Source::Path(path) => path.display().to_string(),
        }
    }
}

pub fn parse(words: Vec<OsString>) -> Result<Command, Failure> {
    let mut words = Words::split(words)?;
    if words.flag("--json") & words.flag("--quiet") {
        return Err(usage("--json and --quiet do not go together"));
    }
    if words.flag("--help") {
        return help_about(&words.plain);
    }
    if words.flag("--version") {
        words.finish("rvf --version", 0)?;
        return Ok(Command::Version);
    }
    if words.plain.is_empty() {
        return Err(usage(format!("name a command: {} or help", help::COMMANDS.join(", "))));
    }
    let name = words.plain.remove(0);
    match name.to_str() {
        Some("help") => help_about(&words.plain),
        Some("list") => Ok(Command::List(words.files("rvf list")?)),
        Some("check") => Ok(Command::Check(words.files("rvf check")?)),
        Some("get") => get(words),
        Some("append") => append(words),
        Some("retire") => retire(words),
        Some("compact") => compact(words),
        Some("salvage") => salvage(words),
        _ => Err(usage(format!("unknown command '{}'", name.to_string_lossy()))),
    }
}

fn help_about(plain: &[OsString]) -> Result<Command, Failure> {
    match plain {
        [] => Ok(Command::Help(None)),
        [word, ..] if word == "help" => Ok(Command::Help(None)),
        [word, ..] => match help::COMMANDS.iter().find(|name| word == **name) {
            Some(name) => Ok(Command::Help(Some(name))),
            None => Err(usage(format!("unknown command '{}'", word.to_string_lossy()))),
        },
    }
}

fn get(mut words: Words) -> Result<Command, Failure> {
    let (segment, component, to) = (words.number("--segment")?, words.number("--component")?, words.value("--to"));
    let accept_older = words.flag("--accept-older");
    let plain = if segment.is_some() { 1 } else { 2 };
    let [file, rest @ ..] = &words.finish("rvf get", plain)?[..] else {
        return Err(usage("rvf get needs a FILE"));
    };
    let wanted = match (segment, rest, component, to) {
        (Some(_), _, Some(_), _) => return Err(usage("--segment and --component do not go together")),
        (Some(id), _, None, to) => Wanted::Segment { id, to: to.map(PathBuf::from) },
        (None, _, _, Some(_)) => return Err(usage("--to goes with --segment only")),
        (None, [], ..) => return Err(usage("rvf get needs the ID of a vector, or --segment ID of a segment")),
        (None, [id, ..], None, None) => Wanted::Vector(number("VECTOR-ID", id)?),
        (None, [id, ..], Some(index), None) => Wanted::Component { id: number("VECTOR-ID", id)?, index },
    };
    Ok(Command::Get(Get { file: file.into(), wanted, accept_older }))
}

fn writing(words: &mut Words) -> Result<Writing, Failure> {
    Ok(Writing {
        dry_run: words.flag("--dry-run"),
        discard_tail: words.flag("--discard-tail"),
        wait: Duration::from_secs(words.number("--wait")?.unwrap_or(0)),
    })
}

/// What append and retire share, without the file, the batch and the ids to retire.
fn common(words: &mut Words) -> Result<Append, Failure> {
    let (time, writing) = (words.number("--time")?, writing(words)?);
    Ok(Append { file: PathBuf::new(), batch: Batch::Empty, retire: Vec::new(), time, create: false, writing })
}

fn append(mut words: Words) -> Result<Command, Failure> {
    let common = common(&mut words)?;
    let (retire, create) = (words.numbers(REPEATED)?, words.flag("--create"));
    let vectors = words.value("--vectors");
    let reading = Reading { no_final_newline: words.flag("--no-final-newline"), round: words.flag("--round") };
    let plain = words.finish("rvf append", 2)?;
    let (file, batch) = match (&plain[..], vectors) {
        ([file], Some(text)) => (file, Batch::Vectors(source(&text), reading)),
        ([_, ..], None) if reading.no_final_newline || reading.round => {
            return Err(usage("--no-final-newline and --round go with --vectors only"))
        }
        ([file, batch], None) => (file, Batch::Bytes(source(batch))),
        ([], _) => return Err(usage("rvf append needs a FILE")),
        ([_], None) => return Err(usage("rvf append needs a BATCH, or --vectors TEXT")),
        ([_, batch, ..], Some(_)) => {
            return Err(usage(format!("'{}' and --vectors do not go together", batch.to_string_lossy())))
        }
        ([_, _, ..], None) => return Err(usage("rvf append takes one FILE and one BATCH")),
    };
    Ok(Command::Append(Append { file: file.into(), batch, retire, create, ..common }))
}

fn retire(mut words: Words) -> Result<Command, Failure> {
    let common = common(&mut words)?;
    let plain = words.finish("rvf retire", usize::MAX)?;
    let [file, ids @ ..] = &plain[..] else {
        return Err(usage("rvf retire needs a FILE and the IDs of segments"));
    };
    if ids.is_empty() {
        return Err(usage("rvf retire needs the ID of at least one segment"));
    }
    let retire = ids.iter().map(|id| number("SEGMENT-ID", id)).collect::<Result<_, _>>()?;
    Ok(Command::Append(Append { file: file.into(), retire, ..common }))
}

fn compact(mut words: Words) -> Result<Command, Failure> {
    let (writing, to) = (writing(&mut words)?, words.value("--to").map(PathBuf::from));
    match &words.finish("rvf compact", 1)?[..] {
        [file] => Ok(Command::Compact(Compact { file: file.into(), to, writing })),
        _ => Err(usage("rvf compact needs a FILE")),
    }
}

fn salvage(words: Words) -> Result<Command, Failure> {
    match &words.finish("rvf salvage", 2)?[..] {
        [file, to] => Ok(Command::Salvage { file: file.into(), to: to.into() }),
        _ => Err(usage("rvf salvage needs a FILE and the path of a NEW one")),
    }
}

fn source(word: &OsStr) -> Source {
    if word == "-" { Source::Stdin } else { Source::Path(word.into()) }
}
