//! `rvf check`: what was found, for people and as JSON.

use crate::check::{check, Checked, Finding, Weight};
use crate::failure::{Failure, DONE, FAULTS};
use crate::files::read_store;
use crate::json::Json;
use crate::list::manifest_json;
use crate::lost::Loss;
use crate::quote::quoted;
use crate::refusals::{mending, reading, Target};
use crate::room::advice;
use crate::walk::Stop;
use crate::Answer;
use rvf::Manifest;
use std::fmt::Write;
use std::path::Path;

pub fn run(path: &Path, json: bool) -> Result<Answer, Failure> {
    let file = read_store(path)?;
    let checked = check(&file).map_err(|refusal| reading(path, &file, Target::Directory, refusal))?;
    let status = if checked.count(Weight::Fault) == 0 { DONE } else { FAULTS };
    Ok(Answer::of(json, || value(&checked), || text(path, &checked)).with_status(status))
}

fn text(path: &Path, checked: &Checked) -> String {
    let mut text =
        format!("{}: {} bytes\n{}\n{}\n", path.display(), checked.length, chain(checked), manifest(checked));
    if let Some((room, back)) = checked.room {
        let _ = writeln!(text, "room: {}; {}", room.left(), advice(path, back));
    }
    for finding in &checked.findings {
        let word = match finding.weight {
            Weight::Fault => "FAULT ",
            Weight::Remark => "remark",
        };
        let _ = writeln!(text, "{word} byte {}: {}", finding.offset, finding.what);
        finding.effect.lines().for_each(|line| text += &format!("       {line}\n"));
    }
    let (faults, remarks) = (checked.count(Weight::Fault), checked.count(Weight::Remark));
    let _ = writeln!(text, "{}, {}", plural(faults, "fault"), plural(remarks, "remark"));
    text + &next(path, checked)
}

fn plural(count: usize, word: &str) -> String {
    format!("{count} {word}{}", if count == 1 { "" } else { "s" })
}

fn chain(checked: &Checked) -> String {
    let (links, stopped) = (plural(checked.walk.links.len(), "segment"), checked.walk.stopped);
    match checked.walk.why {
        Stop::FileEnd => format!("chain: {links}, to the file's end"),
        why => format!("chain: {links}, stops at byte {stopped}: {why}"),
    }
}

fn manifest(checked: &Checked) -> String {
    let Some((manifest, entries)) = &checked.manifest else {
        return "manifest: none".to_string();
    };
    let retired = entries.iter().filter(|entry| entry.retired).count();
    let live = entries.len() - retired;
    let Manifest { id, offset, end, .. } = manifest;
    format!("manifest: id {id} at byte {offset}, ends at {end}; {live} live and {retired} retired segments")
}

/// What can be done about the faults: first what brings the present position back, then what
/// brings an older one.
fn next(path: &Path, checked: &Checked) -> String {
    if let Some(absence) = &checked.absence {
        return format!("next: {}\n", absence.next(path));
    }
    if checked.loss.is_some() {
        let path = quoted(path);
        return format!(
            "next: 'rvf salvage {path} NEW' saves every segment that is whole to a new file; or take a copy\n      \
             from elsewhere; or append with --discard-tail, which saves what lies behind beside the file\n"
        );
    }
    let bad = |finding: &Finding| finding.segment.filter(|_| finding.weight == Weight::Fault);
    let ids: Vec<u64> = checked.findings.iter().filter_map(bad).collect();
    if ids.is_empty() {
        return String::new();
    }
    let (append, retire) = mending(path, ids.iter().copied());
    if ids.iter().all(|&id| checked.reserved(id)) {
        return format!("next: no batch brings a reserved type, so retire what is bad: '{retire}', or take a copy from elsewhere\n");
    }
    format!(
        "next: append the batch again and retire what is bad in one step: '{append}'\n      \
         or only retire it: '{retire}'; older vectors with the same ids are answered from then on\n"
    )
}

fn value(checked: &Checked) -> Json {
    let why = match checked.walk.why {
        Stop::FileEnd => Json::Null,
        why => Json::text(why.to_string()),
    };
    let chain = vec![
        ("segments", Json::Number(checked.walk.links.len() as u64)),
        ("stopped", Json::Number(checked.walk.stopped as u64)),
        ("why", why),
    ];
    let mut members = vec![
        ("length", Json::Number(checked.length as u64)),
        ("chain", Json::Object(chain)),
        ("manifest", checked.manifest.as_ref().map_or(Json::Null, |(manifest, _)| manifest_json(manifest))),
        ("lost", checked.loss.as_ref().map_or(Json::Null, Loss::json)),
        ("findings", Json::List(checked.findings.iter().map(finding_json).collect())),
        ("faults", Json::Number(checked.count(Weight::Fault) as u64)),
        ("remarks", Json::Number(checked.count(Weight::Remark) as u64)),
    ];
    if let Some((room, back)) = checked.room {
        members.extend([("left", room.json()), ("back", back.json())]);
    }
    Json::Object(members)
}

fn finding_json(finding: &Finding) -> Json {
    let kind = if finding.weight == Weight::Fault { "fault" } else { "remark" };
    Json::Object(vec![
        ("kind", Json::text(kind)),
        ("offset", Json::Number(finding.offset as u64)),
        ("segment", Json::maybe(finding.segment)),
        ("refused", Json::maybe(finding.refusal.map(|refusal| refusal.number().into()))),
        ("what", Json::text(&finding.what)),
        ("effect", Json::text(finding.effect.replace('\n', "; "))),
    ])
}
