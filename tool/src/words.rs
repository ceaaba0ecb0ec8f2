//! The words of the command line, taken apart into options and plain words.
//!
//! An option may stand anywhere; behind `--` every word is plain, so that a file whose
//! name begins with a dash can be named.

use crate::failure::Failure;
use std::ffi::{OsStr, OsString};
use std::path::PathBuf;

/// The options, and whether each takes a value.
const OPTIONS: [(&str, bool); 17] = [
    ("--json", false),
    ("--help", false),
    ("--version", false),
    ("--quiet", false),
    ("--create", false),
    ("--dry-run", false),
    ("--accept-older", false),
    ("--discard-tail", false),
    ("--no-final-newline", false),
    ("--round", false),
    ("--component", true),
    ("--segment", true),
    ("--to", true),
    ("--retire", true),
    ("--time", true),
    ("--vectors", true),
    ("--wait", true),
];
/// Short names.
const SHORT: [(&str, &str); 3] = [("-h", "--help"), ("-V", "--version"), ("-q", "--quiet")];
/// The one option that may be given several times.
pub const REPEATED: &str = "--retire";

/// The option that a word names, whether it takes a value, and the value behind a `=` if one
/// stands there; none where it names no option.
fn option(word: &OsStr) -> Option<(&'static str, bool, Option<OsString>)> {
    let text = word.to_str()?;
    let (name, value) = text.split_once('=').map_or((text, None), |(name, value)| (name, Some(value.into())));
    let name = SHORT.iter().find(|(short, _)| *short == name).map_or(name, |(_, long)| long);
    OPTIONS.iter().find(|(other, _)| *other == name).map(|(name, valued)| (*name, *valued, value))
}

/// Whether an option without a value is among the words. It is looked for before the words
/// are understood, so that wrong words can be told in JSON too.
pub fn wishes(words: &[OsString], wanted: &str) -> bool {
    let mut words = words.iter().take_while(|word| *word != "--");
    while let Some(word) = words.next() {
        match option(word) {
            Some((name, false, None)) if name == wanted => return true,
            Some((_, true, None)) => drop(words.next()),
            _ => (),
        }
    }
    false
}

/// The plain words, and the options that no command has taken yet.
pub struct Words {
    pub plain: Vec<OsString>,
    options: Vec<(&'static str, OsString)>,
}

impl Words {
    pub fn split(words: Vec<OsString>) -> Result<Words, Failure> {
        let mut split = Words { plain: Vec::new(), options: Vec::new() };
        let mut words = words.into_iter();
        while let Some(word) = words.next() {
            if word == "--" {
                split.plain.extend(words);
                break;
            }
            if word == "-" || !word.as_encoded_bytes().starts_with(b"-") {
                split.plain.push(word);
                continue;
            }
            let unknown = || usage(format!("unknown option '{}'", word.to_string_lossy()));
            let (name, valued, value) = option(&word).ok_or_else(unknown)?;
            if name != REPEATED && split.options.iter().any(|(other, _)| *other == name) {
                return Err(usage(format!("{name} is given twice")));
            }
            let value = match (valued, value) {
                (true, None) => words.next().ok_or_else(|| usage(format!("{name} needs a value")))?,
                (true, Some(value)) => value,
                (false, None) => OsString::new(),
                (false, Some(_)) => return Err(usage(format!("{name} takes no value"))),
            };
            split.options.push((name, value));
        }
        Ok(split)
    }

    /// Takes the first option of a name.
    pub fn value(&mut self, name: &str) -> Option<OsString> {
        let place = self.options.iter().position(|(other, _)| *other == name)?;
        Some(self.options.remove(place).1)
    }

    pub fn flag(&mut self, name: &str) -> bool {
        self.value(name).is_some()
    }

    pub fn number(&mut self, name: &str) -> Result<Option<u64>, Failure> {
        self.value(name).map(|word| number(name, &word)).transpose()
    }

    pub fn numbers(&mut self, name: &str) -> Result<Vec<u64>, Failure> {
        std::iter::from_fn(|| self.number(name).transpose()).collect()
    }

    /// The plain words, at most so many of them, once all options are taken.
    pub fn finish(self, command: &str, most: usize) -> Result<Vec<OsString>, Failure> {
        if let Some((name, _)) = self.options.first() {
            return Err(usage(format!("{command} takes no {name}")));
        }
        if let Some(word) = self.plain.get(most) {
            return Err(usage(format!("{command} has no use for '{}'", word.to_string_lossy())));
        }
        Ok(self.plain)
    }

    /// One FILE or several.
    pub fn files(self, command: &str) -> Result<Vec<PathBuf>, Failure> {
        let files = self.finish(command, usize::MAX)?;
        if files.is_empty() {
            return Err(usage(format!("{command} needs a FILE")));
        }
        Ok(files.into_iter().map(PathBuf::from).collect())
    }
}

pub fn usage(words: impl Into<String>) -> Failure {
    Failure::Usage(words.into())
}

/// A decimal number of 64 bits; no sign, no blank.
pub fn decimal(word: &str) -> Option<u64> {
    word.bytes().all(|byte| byte.is_ascii_digit()).then(|| word.parse().ok())?
}

pub fn number(name: &str, word: &OsStr) -> Result<u64, Failure> {
    word.to_str().and_then(decimal).ok_or_else(|| {
        let word = word.to_string_lossy();
        usage(format!("{name} must be a whole number from 0 to {}, not '{word}'", u64::MAX))
    })
}
