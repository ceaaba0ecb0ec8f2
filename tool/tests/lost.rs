//! Batches lost behind a flipped bit: no command takes the older answer for the present one.

mod common;

use common::stores::{batches, body, latest, position, six, ID};
use common::{appended, bytes_of, put, rvf, sample, text, Place, Ran};
use rvf_tool::lost::loss;
use rvf_tool::walk::walk;

/// A store of 512 batches with one bit flipped in the second batch's first header: by the rules
/// it answers the position of the first batch.
fn flipped() -> Vec<u8> {
    let mut file = batches(512);
    file[4_423] ^= 0x80;
    assert_eq!(latest(&file), Some(1.0));
    file
}

fn place(name: &str, file: &[u8]) -> Place {
    let payload = position(513);
    Place::new(name, file, &rvf::batch(&[body(rvf::VEC, &payload)]))
}

const WHAT: &str = "14823104 bytes behind byte 4416 are lost, not cut short: 511 manifests among them, the newest is \
                    manifest 1023 at byte 14774208\n\
                    rvf: the chain breaks at byte 4422: the flags 0x8000 are not allowed";

/// No answer, status 65, and a message that names the lost manifest and `rvf check`.
fn must_be_unanswered(ran: &Ran, file: &str) {
    assert_eq!((ran.status, ran.text()), (65, ""), "{}", ran.stderr);
    assert!(ran.stderr.starts_with(&format!("rvf: {file}: {WHAT}")), "{}", ran.stderr);
    assert!(ran.stderr.contains(&format!("'rvf check {file}' says more")), "{}", ran.stderr);
}

#[test]
fn nothing_old_is_handed_out() {
    let place = place("lost-get", &flipped());
    let file = text(&place.file);
    for words in [&["7"][..], &["7", "--component", "1"], &["--segment", "0"], &["8"]] {
        let ran = rvf(&[&["get", file], words].concat());
        must_be_unanswered(&ran, file);
        assert!(ran.stderr.ends_with("or --accept-older, which answers from before the break\n"), "{}", ran.stderr);
        let ran = rvf(&[&["get", file, "--json"], words].concat());
        assert!(ran.json().contains("manifest 1023") && ran.json().ends_with(",\"status\":65}"), "{}", ran.json());
    }
    let to = place.file.with_file_name("payload");
    must_be_unanswered(&rvf(&["get", file, "--segment", "0", "--to", text(&to)]), file);
    assert!(!to.exists());
    // Whoever wants the older position says so, and is told what it is.
    let ran = rvf(&["get", file, "7", "--accept-older"]);
    assert_eq!((ran.status, ran.text()), (0, "vector 7, dim 3, dtype f32\n1 100 200\n"));
    assert!(
        ran.stderr.starts_with(&format!("rvf: {file}: {WHAT}"))
            && ran.stderr.ends_with("\nrvf: this answer may be old\n")
    );
    for words in [&["7"][..], &["7", "--component", "1"], &["--segment", "0"]] {
        let ran = rvf(&[&["get", file, "--accept-older", "--json"], words].concat());
        assert!(ran.status == 0 && ran.json().ends_with(",\"may_be_old\":true}"), "{}", ran.json());
        assert!(ran.stderr.ends_with("\nrvf: this answer may be old\n"));
    }
    // Where nothing is lost, the option changes nothing.
    put(&place.file, &batches(3));
    let ran = rvf(&["get", file, "7", "--accept-older", "--json"]);
    assert!(ran.stderr.is_empty() && !ran.json().contains("may_be_old"), "{}", ran.json());
}

#[test]
fn list_prints_and_ends_with_65() {
    let place = place("lost-list", &flipped());
    let file = text(&place.file);
    let ran = rvf(&["list", file]);
    assert_eq!(ran.status, 65);
    assert!(ran.text().contains("manifest 1 at 192, end 4416, "), "{}", ran.text());
    assert!(ran.stderr.starts_with(&format!("rvf: {file}: {WHAT}")), "{}", ran.stderr);
    let ran = rvf(&["list", file, "--json"]);
    let lost = "\"lost\":{\"manifest\":1023,\"offset\":14774208,\"manifests\":511,\
                \"end\":4416,\"bytes\":14823104,\"breaks\":4422,";
    assert!(ran.status == 65 && ran.json().contains(lost), "{}", ran.json());
}

#[test]
fn check_finds_a_fault() {
    let place = place("lost-check", &flipped());
    let ran = rvf(&["check", text(&place.file)]);
    assert_eq!((ran.status, ran.stderr.as_str()), (65, ""));
    let fault = "\nFAULT  byte 4422: the chain breaks: the flags 0x8000 are not allowed (only 0x03c8 and parts of it)\n";
    let effect = "\n       14823104 bytes behind byte 4416 are lost, not cut short: 511 manifests among them, the newest is \
                  manifest 1023 at byte 14774208\n";
    assert!(ran.text().contains(effect), "{}", ran.text());
    assert!(ran.text().contains(fault), "{}", ran.text());
    assert!(ran.text().contains("\n1 fault, 0 remarks\nnext: 'rvf salvage "), "{}", ran.text());
    let json = rvf(&["check", text(&place.file), "--json"]);
    assert!(json.status == 65 && json.json().contains(",\"lost\":{\"manifest\":1023,"), "{}", json.json());
    // The padding of the note in the clean sample: the byte and the rule are named.
    let mut padded = sample("clean.rvf");
    padded[4_692] ^= 4;
    put(&place.file, &padded);
    let ran = rvf(&["check", text(&place.file)]);
    let fault = "FAULT  byte 4692: the chain breaks: padding of segment 3 at byte 4692 is not zero\n       \
                 9408 bytes behind byte 4416";
    assert!(ran.status == 65 && ran.text().contains(fault), "{}", ran.text());
}

#[test]
fn nothing_is_appended_unless_the_tail_is_saved() {
    let old = flipped();
    let place = place("lost-append", &old);
    let file = text(&place.file);
    let retire = |words: &[&str]| rvf(&[&["retire", file, "0"], words].concat());
    for ran in [place.append(&[]), retire(&[]), place.append(&["--dry-run"])] {
        must_be_unanswered(&ran, file);
        assert!(ran.stderr.contains("or --discard-tail, which saves what lies behind"), "{}", ran.stderr);
        assert!(bytes_of(&place.file) == old);
    }
    let tail = |number: usize| place.file.with_file_name(format!("f.rvf.tail-{number}"));
    // A dry run saves nothing; what is there is not written over.
    assert_eq!(place.append(&["--discard-tail", "--dry-run"]).status, 0);
    assert!(!tail(1).exists() && bytes_of(&place.file) == old);
    put(&tail(1), b"mine");
    let ran = place.append(&["--discard-tail", "--time", "9"]);
    assert_eq!(ran.status, 0, "{}", ran.stderr);
    let said = format!("14823104 bytes behind the old end are gone; they are saved in {}\n", tail(2).display());
    assert!(ran.text().ends_with(&said), "{}", ran.text());
    assert!(bytes_of(&tail(1)) == b"mine" && bytes_of(&tail(2)) == old[4_416..]);
    let batch = bytes_of(&place.batch);
    assert!(bytes_of(&place.file) == appended(&old[..4_416], &batch, &[], 9).expect("accepted"));
    assert_eq!(rvf(&["get", file, "7"]).status, 0);
    // Retire does the same.
    put(&place.file, &old);
    let ran = retire(&["--discard-tail", "--json"]);
    assert!(ran.status == 0 && ran.json().contains("f.rvf.tail-3\""), "{}", ran.json());
    assert!(bytes_of(&tail(3)) == old[4_416..]);
}

/// Where the tail cannot be saved, as on a full disk, nothing is removed.
#[cfg(unix)]
#[test]
fn a_tail_that_cannot_be_saved_stays() {
    let old = flipped();
    let place = place("lost-full", &old);
    let script = "trap '' XFSZ; ulimit -f 100; exec \"$0\" append \"$1\" \"$2\" --discard-tail";
    let mut shell = std::process::Command::new("sh");
    let words = ["-c", script, env!("CARGO_BIN_EXE_rvf"), text(&place.file), text(&place.batch)];
    let ran = shell.args(words).output().expect("the shell runs");
    assert_eq!(ran.status.code(), Some(74), "{}", String::from_utf8_lossy(&ran.stderr));
    assert!(bytes_of(&place.file) == old);
    let names = std::fs::read_dir(place.file.parent().expect("a folder")).expect("it is there").count();
    assert_eq!(names, 2, "half a tail is left");
}

/// A third of the flips in three batches that hold one id bring an older position; every
/// hundredth of them is put to the program.
#[test]
fn three_batches_flipped() {
    let clean = batches(3);
    let place = place("lost-three", &clean);
    let (mut tried, mut older) = (0, 0);
    for bit in (0..8 * clean.len()).step_by(937) {
        let mut file = clean.clone();
        file[bit / 8] ^= 1 << (bit % 8);
        put(&place.file, &file);
        let ran = rvf(&["get", text(&place.file), &ID.to_string()]);
        let right = ran.text() == "vector 7, dim 3, dtype f32\n3 100 200\n";
        assert!(right && ran.status == 0 || ran.status != 0 && ran.text().is_empty(), "bit {bit}: {}", ran.text());
        tried += 1;
        older += usize::from(latest(&file).is_some_and(|number| number < 3.0));
    }
    assert!(tried > 100 && 4 * older > tried && 5 * older < 2 * tried, "{older} of {tried}");
}

/// The byte that is named is the flipped one, where a rule speaks of it alone: every byte of
/// padding, and the fields of a header that have fixed values.
#[test]
fn the_break_is_named_where_the_bit_is() {
    let clean = six().pop().expect("six");
    let (mut padding, mut fields) = (0, 0);
    // The first batch has no older one: nothing is lost to it.
    for link in walk(&clean).links.iter().skip(2).filter(|link| link.kind != rvf::MANIFEST) {
        for at in (link.offset..link.offset + 64).chain(link.offset + 64 + link.length..link.end) {
            let mut file = clean.clone();
            file[at] ^= 0x10;
            let lost = loss(&file).expect("within the limit");
            let byte = at - link.offset;
            if byte >= 64 {
                assert_eq!(lost.map(|lost| lost.at), Some(at));
                padding += 1;
            } else if matches!(byte, 0..=4 | 6 | 32..=39 | 56..=63) {
                let lost = lost.expect("batches are lost");
                assert!((link.offset..=at).contains(&lost.at), "byte {at}: {} {}", lost.at, lost.why);
                fields += 1;
            }
        }
    }
    assert_eq!((padding, fields), (90, 198));
}

/// A cut is no loss: the same words as before, status 0.
#[test]
fn a_cut_is_no_loss() {
    let clean = batches(3);
    let before = batches(2);
    let place = place("lost-cut", &clean);
    for length in (before.len()..clean.len()).step_by(211).chain([clean.len() - 1]) {
        put(&place.file, &clean[..length]);
        let file = text(&place.file);
        let ran = rvf(&["get", file, "7"]);
        assert_eq!((ran.status, ran.text(), ran.stderr.as_str()), (0, "vector 7, dim 3, dtype f32\n2 100 200\n", ""));
        assert_eq!((rvf(&["check", file]).status, rvf(&["list", file]).status), (0, 0));
        assert_eq!(place.append(&[]).status, 0);
    }
}
