//! `rvf list`: the directory of a file's manifest, as a table or as JSON.

use crate::failure::{Failure, DONE, FAULTS};
use crate::files::read_store;
use crate::json::Json;
use crate::lost::{loss, Loss};
use crate::refusals::{reading, Target};
use crate::walk::{content_hash, type_name, HEADER};
use crate::Answer;
use rvf::{Entry, Manifest, Refusal};
use std::fmt::Write;
use std::path::Path;

/// The list of a file; `named` puts its path above it. Where batches are lost, the directory
/// is an old one: it is printed, and the status says so.
pub fn run(path: &Path, json: bool, named: bool) -> Result<Answer, Failure> {
    let file = read_store(path)?;
    let listing = Listing::of(&file).map_err(|refusal| reading(path, &file, Target::Directory, refusal))?;
    let heading = if named { format!("{}:\n", path.display()) } else { String::new() };
    let answer = Answer::of(json, || listing.json(), || heading + &listing.text());
    let (messages, status) = match &listing.loss {
        Some(loss) => (loss.unanswered(path).messages(), FAULTS),
        None => (String::new(), DONE),
    };
    Ok(answer.saying(messages).with_status(status))
}

pub fn manifest_json(manifest: &Manifest) -> Json {
    Json::Object(vec![
        ("id", Json::Number(manifest.id)),
        ("offset", Json::Number(manifest.offset)),
        ("end", Json::Number(manifest.end)),
        ("entries", Json::Number(manifest.count)),
        ("tried", Json::Number(manifest.tried)),
    ])
}

/// A directory, with the check of each segment's content hash.
struct Listing {
    manifest: Manifest,
    entries: Vec<(Entry, bool)>,
    /// Bytes behind the manifest's end.
    behind: u64,
    loss: Option<Loss>,
}

impl Listing {
    fn of(file: &[u8]) -> Result<Listing, Refusal> {
        let manifest = rvf::open(file)?;
        // A confirmed manifest's entries are links of the chain, so they lie in the file.
        let payload = |entry: &Entry| &file[entry.offset as usize + HEADER..][..entry.length as usize];
        let checked = |entry: Entry| (entry, entry.hash == content_hash(payload(&entry)));
        let entries = rvf::entries(file)?.into_iter().map(checked).collect();
        Ok(Listing { manifest, entries, behind: file.len() as u64 - manifest.end, loss: loss(file)? })
    }

    fn text(&self) -> String {
        let head = ["id", "type", "offset", "length", "state", "check"].map(str::to_string);
        let rows = self.entries.iter().map(|(entry, whole)| row(entry, state(entry.retired), *whole));
        // The file's own manifest is confirmed, so its hash agrees.
        let Manifest { id, offset, end, tried, .. } = self.manifest;
        let length = end - offset - HEADER as u64;
        let own = Entry { offset, id, length, hash: [0; 16], kind: rvf::MANIFEST, retired: false, flags: 0 };
        let rows: Vec<_> = [head].into_iter().chain(rows).chain([row(&own, "manifest", true)]).collect();
        let mut text = table(&rows);
        let _ = writeln!(text, "manifest {id} at {offset}, end {end}, boundaries tried {tried}");
        if self.behind > 0 {
            let _ = writeln!(text, "{} bytes lie behind the end; they are no part of the store", self.behind);
        }
        text
    }

    fn json(&self) -> Json {
        let entry = |(entry, whole): &(Entry, bool)| {
            Json::Object(vec![
                ("id", Json::Number(entry.id)),
                ("type", Json::Number(entry.kind.into())),
                ("name", Json::text(type_name(entry.kind))),
                ("flags", Json::Number(entry.flags.into())),
                ("offset", Json::Number(entry.offset)),
                ("length", Json::Number(entry.length)),
                ("state", Json::text(state(entry.retired))),
                ("check", Json::text(verdict(*whole))),
            ])
        };
        let mut members = vec![
            ("entries", Json::List(self.entries.iter().map(entry).collect())),
            ("manifest", manifest_json(&self.manifest)),
            ("behind", Json::Number(self.behind)),
        ];
        members.extend(self.loss.as_ref().map(|loss| ("lost", loss.json())));
        Json::Object(members)
    }
}

pub fn state(retired: bool) -> &'static str {
    if retired { "retired" } else { "live" }
}

fn verdict(whole: bool) -> &'static str {
    if whole { "ok" } else { "bad" }
}

type Row = [String; 6];

fn row(entry: &Entry, state: &str, whole: bool) -> Row {
    let kind = format!("{} {}", entry.kind, type_name(entry.kind));
    let numbers = [entry.id, entry.offset, entry.length].map(|number| number.to_string());
    let [id, offset, length] = numbers;
    [id, kind, offset, length, state.to_string(), verdict(whole).to_string()]
}

/// Columns as wide as their widest cell; numbers stand at the right of theirs.
fn table(rows: &[Row]) -> String {
    let width = |column: usize| rows.iter().map(|row| row[column].len()).max().unwrap_or(0);
    let [a, b, c, d, e] = [width(0), width(1), width(2), width(3), width(4)];
    let mut text = String::new();
    for [id, kind, offset, length, state, check] in rows {
        let _ = writeln!(text, "{id:>a$}  {kind:<b$}  {offset:>c$}  {length:>d$}  {state:<e$}  {check}");
    }
    text
}
