//! The vector files: one case a line, words separated by one space, the answer behind
//! `=`. A `file NAME HEX` line names bytes for the lines after it, an `edit NAME BASE LENGTH
//! FILL PATCHES` line bytes made from those of an earlier one. `-` is an empty byte string or
//! list.

use crate::calls::{Calls, Layer, VecInput};
use crate::reference::{limits, manifest};
use crate::runner::{self, Outcome};
use std::collections::{BTreeMap, HashMap};

/// What a run over a vector file came to.
#[derive(Default)]
pub struct Summary {
    /// Lines run, by kind.
    pub run: BTreeMap<String, usize>,
    /// Lines whose call the implementation lacks.
    pub skipped: usize,
    /// Lines whose answer differs: line number, kind, wanted and given answer.
    pub differences: Vec<String>,
}

/// Runs every line of a vector file against an implementation.
pub fn run(text: &str, calls: &dyn Calls) -> Summary {
    let mut summary = Summary::default();
    let mut files: HashMap<&str, Vec<u8>> = HashMap::new();
    for (index, line) in text.lines().enumerate() {
        let (question, wanted) = line.split_once(" = ").unwrap_or((line, ""));
        let words: Vec<&str> = question.split(' ').collect();
        let named = match words[0] {
            "file" => Some(bytes(words[2])),
            "edit" => Some(edited(&words, &files)),
            _ => None,
        };
        if let Some(bytes) = named {
            files.insert(words[1], bytes);
            continue;
        }
        match answer(&words, &files, calls) {
            None => summary.skipped += 1,
            Some(given) => {
                *summary.run.entry(words[0].to_string()).or_default() += 1;
                if given != wanted {
                    let shown = |text: &str| text.chars().take(400).collect::<String>();
                    let (question, wanted, given) = (shown(question), shown(wanted), shown(&given));
                    summary.differences.push(format!("line {}: {question}\n  wanted {wanted}\n  given  {given}", index + 1));
                }
            }
        }
    }
    summary
}

/// The bytes of an `edit` line: the front of the base, filled up to the length, and patches
/// `AT:HEX` put over them in their order.
fn edited(words: &[&str], files: &HashMap<&str, Vec<u8>>) -> Vec<u8> {
    let (base, length, fill) = (words[2], number(words[3]) as usize, bytes(words[4])[0]);
    let mut made = vec![fill; length];
    if base != "-" {
        let kept = files[base].len().min(length);
        made[..kept].copy_from_slice(&files[base][..kept]);
    }
    for patch in words[5].split(',').filter(|patch| *patch != "-") {
        let (at, patch) = patch.split_once(':').expect("a patch is AT:HEX");
        let patch = bytes(patch);
        made[number(at) as usize..][..patch.len()].copy_from_slice(&patch);
    }
    made
}

/// The layer whose call a kind of line makes.
pub fn layer(kind: &str) -> Layer {
    match kind {
        "crc32c" | "varint_read" | "varint_write" | "idmap_read" | "idmap_write" => Layer::Leaves,
        "vec_check" | "vec_write" => Layer::Vec,
        "open" | "entry" => Layer::Open,
        "payload" | "vector" | "component" => Layer::Reading,
        "append" => Layer::Append,
        "list" => Layer::List,
        "compact" => Layer::Compact,
        other => panic!("a line of unknown kind: {other}"),
    }
}

/// The answer to a line, in the file's own words; `None` where the call is absent.
fn answer(words: &[&str], files: &HashMap<&str, Vec<u8>>, calls: &dyn Calls) -> Option<String> {
    if !calls.has(layer(words[0])) {
        return None;
    }
    let n = |at: usize| number(words[at]);
    let file = || &files[words[1]];
    Some(match words[0] {
        "crc32c" => calls.crc32c(&bytes(words[1])).to_string(),
        "varint_read" => shown(&runner::varint_read(calls, &bytes(words[1])), |out, _| spaced(out)),
        "varint_write" => {
            shown(&runner::varint_write(calls, n(1) as usize, n(2)), |_, written| hex(written))
        }
        "vec_check" => calls.vec_check(&bytes(words[1])).to_string(),
        "idmap_read" => {
            let outcome = runner::idmap_read(calls, &bytes(words[1]), n(2), n(3) as usize);
            shown(&outcome, |out, ids| format!("{} {}", out[0], list(ids)))
        }
        "idmap_write" => {
            let outcome = runner::idmap_write(calls, n(1) as usize, &numbers(words[2]), n(3), n(4));
            shown(&outcome, |_, written| hex(written))
        }
        "vec_write" => {
            let input = VecInput {
                ids: numbers(words[2]),
                columns: bytes(words[3]),
                dim: n(4),
                dtype: n(5),
                tier: n(6),
                encoding: n(7),
                interval: n(8),
            };
            shown(&runner::vec_write(calls, n(1) as usize, &input), |_, written| hex(written))
        }
        "open" => {
            let outcome = runner::open(calls, file());
            match (outcome.number, outcome.fault) {
                (2, None) => format!("2 {}", outcome.out[4]),
                _ => shown(&outcome, |out, _| spaced(out)),
            }
        }
        "entry" => shown(&runner::entry(calls, file(), n(2)), |out, _| {
            let hash = [out[3].to_le_bytes(), out[4].to_le_bytes()].concat();
            format!("{} {} {}", spaced(&out[..3]), hex(&hash), spaced(&out[5..]))
        }),
        "payload" => shown(&runner::payload(calls, file(), n(2)), |out, _| spaced(out)),
        "vector" => shown(&runner::vector(calls, file(), n(2), n(3) as usize), |out, written| {
            format!("{} {}", spaced(&out[..2]), hex(written))
        }),
        "component" => shown(&runner::component(calls, file(), n(2), n(3)), |out, _| spaced(out)),
        // The line has the text alone; with this room there is no refusal.
        "list" => {
            let outcome = runner::list(calls, file(), limits::LIST_ROOM);
            outcome.fault.map_or_else(|| hex(&outcome.written), |fault| format!("fault: {fault}"))
        }
        "compact" => shown(&runner::compact(calls, file(), n(2) as usize), |out, written| {
            format!("{} {}", spaced(out), hex(written))
        }),
        _ => {
            let mut buffer = file().clone();
            let start = start_of(&buffer, n(2));
            let (batch, retire) = (bytes(words[3]), numbers(words[4]));
            let outcome = runner::append(calls, &mut buffer, n(2), &batch, &retire, n(5), start);
            shown(&outcome, |out, written| format!("{} {start} {}", spaced(out), hex(written)))
        }
    })
}

/// Where an append to the buffer's first `n` bytes begins to write, if it writes.
pub fn start_of(buffer: &[u8], n: u64) -> usize {
    let file = buffer.get(..n.min(buffer.len() as u64) as usize).unwrap_or(&[]);
    manifest::open(file).map_or(0, |opened| opened.end)
}

/// An outcome as the answer's words; a fault shows in place of them.
fn shown<const K: usize, T>(outcome: &Outcome<K, T>, accepted: impl Fn(&[u64; K], &[T]) -> String) -> String {
    match (outcome.fault, outcome.number) {
        (Some(fault), number) => format!("{number} fault: {fault}"),
        (None, 0) => format!("0 {}", accepted(&outcome.out, &outcome.written)),
        (None, number) => number.to_string(),
    }
}

fn spaced(values: &[u64]) -> String {
    values.iter().map(u64::to_string).collect::<Vec<_>>().join(" ")
}

fn number(word: &str) -> u64 {
    word.parse().unwrap_or_else(|_| panic!("not a number: {word}"))
}

fn numbers(word: &str) -> Vec<u64> {
    if word == "-" { Vec::new() } else { word.split(',').map(number).collect() }
}

fn list(values: &[u64]) -> String {
    if values.is_empty() { "-".into() } else { values.iter().map(u64::to_string).collect::<Vec<_>>().join(",") }
}

/// Bytes as hex, `-` for none.
pub fn hex(bytes: &[u8]) -> String {
    if bytes.is_empty() {
        return "-".into();
    }
    let digit = |value: u8| char::from_digit(value as u32, 16).expect("a half byte");
    bytes.iter().flat_map(|byte| [digit(byte >> 4), digit(byte & 15)]).collect()
}

fn bytes(word: &str) -> Vec<u8> {
    if word == "-" {
        return Vec::new();
    }
    assert!(word.len() % 2 == 0, "hex of odd length");
    let value = |digit: u8| (digit as char).to_digit(16).expect("a hex digit") as u8;
    word.as_bytes().chunks_exact(2).map(|pair| value(pair[0]) << 4 | value(pair[1])).collect()
}

#[cfg(test)]
mod tests {
    use super::*;
    use crate::calls::Reference;

    #[test]
    fn hex_goes_both_ways() {
        assert_eq!((hex(&[]), bytes("-")), ("-".into(), vec![]));
        assert_eq!((hex(&[0, 0x1F, 0xA0]), bytes("001fa0")), ("001fa0".into(), vec![0, 0x1F, 0xA0]));
    }

    #[test]
    fn edits_of_earlier_bytes() {
        let files = HashMap::from([("A", vec![1, 2, 3, 4])]);
        let made = |line: &str| edited(&line.split(' ').collect::<Vec<_>>(), &files);
        assert_eq!(made("edit B A 6 a5 -"), [1, 2, 3, 4, 0xA5, 0xA5]);
        assert_eq!(made("edit B A 2 00 -"), [1, 2]);
        // Patches lie over fill and base, a later one over an earlier one.
        assert_eq!(made("edit B - 5 52 0:0102,4:ff,1:0304"), [1, 3, 4, 0x52, 0xFF]);
        assert_eq!(made("edit B - 0 00 -"), []);
    }

    #[test]
    fn a_wrong_answer_is_a_difference() {
        let text = "idmap_write 9 1 0 0 = 9\nidmap_write 0 1 0 1 = 9\nvec_check 00 = 5\n";
        let summary = run(text, &Reference);
        assert_eq!((summary.differences.len(), summary.skipped), (1, 0));
        assert!(summary.differences[0].contains("given  14"));
    }
}
