//! Segments of types that other writers use: a metadata index (0x0D), carried like a note, and one
//! of a reserved type (0x20), which is listed, copied and retired, but never handed out.

mod common;

use common::{alone, bytes_of, compact, rvf, sample, text, why};
use rvf_tool::salvage::salvage;
use rvf_tool::walk::type_name;
use std::path::Path;

/// In `samples/partner.rvf` the reserved segment has the id 2 and begins here.
const RESERVED: usize = 320;

#[test]
fn every_type_has_its_name() {
    let names = [(1, "VEC"), (5, "MANIFEST"), (12, "CRYPTO"), (13, "METAIDX"), (14, "reserved"), (0xEF, "reserved"), (0xF0, "EXTENSION")];
    for (kind, name) in names {
        assert_eq!(type_name(kind), name, "{kind}");
    }
}

/// The index is handed out, the reserved segment is not: which one, its type, and what can be done.
#[test]
fn only_the_reserved_one_is_kept_back() {
    let place = alone("types-get", &sample("partner.rvf"));
    let file = text(&place.file);
    assert_eq!(rvf(&["get", file, "--segment", "1"]).text(), "station north: 7, 21\n");
    let lines = why(&rvf(&["get", file, "--segment", "2"]), &place.file, 15);
    let next = format!("next: 'rvf list {file}' lists it, a compaction copies it, 'rvf retire {file} 2' retires it");
    assert_eq!(lines, ["segment 2 (96 bytes) at byte 320 is of type 0x20".to_string(), next]);
    // Retired it is no live segment any more.
    assert_eq!(rvf(&["retire", file, "2", "--time", "9"]).status, 0);
    let lines = why(&rvf(&["get", file, "--segment", "2"]), &place.file, 3);
    assert_eq!(lines[0], "segment 2 (reserved, 96 bytes) is retired");
    assert_eq!(compact(&place, &[]).status, 0);
    assert!(!rvf(&["list", file]).text().contains("reserved"));
}

/// Damage in it is a fault, since no copy would carry it on; a batch cannot bring it again.
#[test]
fn damage_in_a_reserved_segment() {
    let mut bytes = sample("partner.rvf");
    bytes[RESERVED + 64] ^= 1;
    let place = alone("types-damaged", &bytes);
    let file = text(&place.file);
    let ran = rvf(&["check", file]);
    let lines: Vec<&str> = ran.text().lines().skip(3).collect();
    let next = format!("next: no batch brings a reserved type, so retire what is bad: 'rvf retire {file} 2', or take a copy from elsewhere");
    let wanted = [
        "FAULT  byte 320: segment 2 (reserved, live): its content hash differs",
        "       compacting the file refuses 4; reading its payload refuses 15, damaged or not",
        "1 fault, 0 remarks",
        &next,
    ];
    assert_eq!((ran.status, &lines[..]), (65, &wanted[..]));
    assert_eq!(rvf(&["get", file, "--segment", "2"]).status, 15);
    let lines = why(&compact(&place, &[]), &place.file, 4);
    let next = format!("next: no batch brings a reserved type, so retire what is bad: 'rvf retire {file} 2'; then compact");
    assert_eq!(lines, ["segment 2 (reserved) at byte 320: its content hash differs".to_string(), next]);
    assert!(bytes_of(&place.file) == bytes);
}

/// What is saved of a file keeps it.
#[test]
fn a_salvage_keeps_it() {
    let mut bytes = sample("partner.rvf");
    bytes[4_864 + 8] ^= 1;
    assert!(rvf::lost_behind(&bytes).is_ok_and(|lost| lost.is_some()));
    let saved = salvage(Path::new("old"), &bytes, Path::new("new"), 9).expect("something is whole");
    let kinds: Vec<u8> = rvf::entries(&saved.new).expect("it opens").into_iter().map(|entry| entry.kind).collect();
    assert_eq!((kinds, saved.found.lost.len()), (vec![1, 0x0D, 0x20, 1], 0));
}
