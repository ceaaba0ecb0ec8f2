//! `rvf compact`: what is written is what the binding makes in memory, and what is said of it.

mod common;

use common::stores::batches;
use common::{alone, appended, bytes_of, compact, compacted, names_beside, put, rvf, sample, small_batch, text};
use rvf::Body;

/// Files with retired segments, older manifests, torn tails, whole files in bodies, and one of many batches.
fn files() -> Vec<Vec<u8>> {
    let names = ["clean.rvf", "torn.rvf", "nested.rvf", "kinds.rvf", "restarts.rvf", "worked.rvf", "compacted.rvf"];
    let retired = appended(&sample("torn.rvf"), &small_batch(), &[2, 3, 5], 9).expect("accepted");
    let nothing_live = appended(&retired, &rvf::batch(&[]), &[7, 8], 10).expect("accepted");
    names.into_iter().map(sample).chain([retired, nothing_live, batches(60)]).collect()
}

#[test]
fn what_is_written_is_what_the_binding_makes() {
    for (index, file) in files().iter().enumerate() {
        let fresh = compacted(file).expect("accepted");
        let place = alone(&format!("compact-{index}"), file);
        let ran = compact(&place, &[]);
        assert_eq!((ran.status, ran.stderr.as_str()), (0, ""));
        assert!(bytes_of(&place.file) == fresh, "file {index}");
        assert_eq!(names_beside(&place.file), ["f.rvf"]);
        // Vectors answer as before, and the next append gets the same id.
        for id in [1, 3, 7, 21, 30, 31, 108] {
            assert_eq!(rvf::vector(&fresh, id), rvf::vector(file, id));
        }
        let next = |file: &[u8]| {
            let next = appended(file, &small_batch(), &[], 11).expect("accepted");
            rvf::open(&next).map(|manifest| manifest.id)
        };
        assert_eq!(next(&fresh), next(file));
    }
}

/// A file that nothing comes back from is left as it is: not even written again.
#[test]
fn nothing_comes_back_a_second_time() {
    for (index, file) in files().iter().enumerate() {
        let fresh = compacted(file).expect("accepted");
        let place = alone(&format!("compact-again-{index}"), &fresh);
        let handle = std::fs::File::open(&place.file).expect("it is there");
        let ran = compact(&place, &[]);
        let rvf::Manifest { id, count, .. } = rvf::open(&fresh).expect("it opens");
        let entries = if count == 1 { "entry" } else { "entries" };
        let has = format!("manifest {id}; {count} {entries}, {} bytes", fresh.len());
        let said = format!("{}: nothing comes back: {has}; it is left as it is\n", text(&place.file));
        assert_eq!((ran.status, ran.text(), ran.stderr.as_str()), (0, said.as_str(), ""));
        assert!(rvf_tool::lock::still_named(&place.file, &handle), "another file has its name");
        let json = compact(&place, &["--json"]);
        assert!(json.json().ends_with(",\"removed\":0,\"unchanged\":true}"), "{}", json.json());
        // A new file is written all the same, if one is named.
        let to = place.file.with_file_name("to");
        assert_eq!(compact(&place, &["--to", text(&to)]).status, 0);
        assert!(bytes_of(&to) == fresh);
    }
}

#[test]
fn what_is_told() {
    let place = alone("compact-told", &sample("torn.rvf"));
    let file = text(&place.file);
    let dry = compact(&place, &["--dry-run"]);
    let wanted = format!(
        "{file}: would be compacted, with manifest 6; 3 entries, 4864 bytes\n\
         8960 bytes and 3 entries would come back: 1 retired segment and 2 older manifests would be gone\n\
         150 bytes behind the old end would be gone\nnothing is written\n"
    );
    assert_eq!((dry.status, dry.text()), (0, wanted.as_str()));
    let values = "{\"manifest\":6,\"entries\":3,\"end\":4864,\"back\":{\"entries\":3,\"bytes\":8960},\
                  \"retired\":[0],\"manifests\":[1,4],\"removed\":150";
    assert_eq!(compact(&place, &["--dry-run", "--json"]).json(), format!("{values},\"dry_run\":true}}"));
    let to = format!("{file}-to");
    let ran = compact(&place, &["--to", &to, "--json"]);
    assert_eq!(ran.json(), format!("{values},\"to\":\"{to}\"}}"));
    std::fs::remove_file(&to).expect("it is there");
    let ran = compact(&place, &["--to", &to]);
    let wanted = format!(
        "{to}: written, with manifest 6; 3 entries, 4864 bytes\n\
         8960 bytes and 3 entries less than {file}, which stays: 1 retired segment and 2 older manifests are left out\n\
         150 bytes behind the old end are left out\n"
    );
    assert_eq!((ran.status, ran.text()), (0, wanted.as_str()));
    // Up to here the file itself is as it was.
    assert!(bytes_of(&place.file) == sample("torn.rvf") && bytes_of(to.as_ref()) == sample("compacted.rvf"));
    let ran = compact(&place, &[]);
    let wanted = format!(
        "{file}: compacted, with manifest 6; 3 entries, 4864 bytes\n\
         8960 bytes and 3 entries came back: 1 retired segment and 2 older manifests are gone\n\
         150 bytes behind the old end are gone\n"
    );
    assert_eq!((ran.status, ran.text()), (0, wanted.as_str()));
    // A torn tail alone: it is gone, and nothing else.
    put(&place.file, &[sample("compacted.rvf"), vec![0x52; 5]].concat());
    let ran = compact(&place, &[]);
    let wanted = "0 bytes and 0 entries came back\n5 bytes behind the old end are gone\n";
    assert!(ran.status == 0 && ran.text().ends_with(&format!("4864 bytes\n{wanted}")), "{}", ran.text());
    assert!(bytes_of(&place.file) == sample("compacted.rvf"));
    put(&place.file, &sample("clean.rvf"));
    let ran = compact(&place, &["-q"]);
    assert_eq!((ran.status, ran.text(), ran.stderr.as_str()), (0, "", ""));
    assert!(bytes_of(&place.file) == sample("compacted.rvf"));
}

/// A new path: never over anything that is there, and the file is left alone.
#[test]
fn to_a_new_path_only() {
    let place = alone("compact-to", &sample("clean.rvf"));
    let folder = place.file.parent().expect("a folder");
    for (name, bytes) in [("full", &b"mine"[..]), ("empty", b"")] {
        let to = folder.join(name);
        put(&to, bytes);
        for words in [&["--to", text(&to)][..], &["--to", text(&to), "--dry-run"]] {
            let ran = compact(&place, words);
            let said = format!("rvf: {}: exists already; name another path\n", text(&to));
            assert_eq!((ran.status, ran.text(), ran.stderr.as_str()), (74, "", said.as_str()));
            assert!(bytes_of(&to) == bytes);
        }
    }
    let nowhere = folder.join("no/such/new.rvf");
    let ran = compact(&place, &["--to", text(&nowhere)]);
    assert!(ran.status == 74 && ran.stderr.contains("there is no such folder"), "{}", ran.stderr);
    assert_eq!(compact(&place, &["--to", text(&place.file)]).status, 74);
    assert!(bytes_of(&place.file) == sample("clean.rvf"));
    assert_eq!(names_beside(&place.file), ["empty", "f.rvf", "full"]);
}

/// A full store that is all live has nothing to bring back, and says what else helps.
#[test]
fn a_store_that_stays_full() {
    let notes = rvf::batch(&[Body { kind: 7, flags: 0, bytes: b"" }; 16]);
    let mut file = Vec::new();
    for time in 0..55 {
        file = appended(&file, &notes, &[], time).expect("accepted");
    }
    let place = alone("compact-full", &file);
    let ran = compact(&place, &[]);
    let retire = format!("nothing back: retire what is not needed ('rvf retire {} SEGMENT-ID')", text(&place.file));
    let back = "bytes and 54 entries came back: 0 retired segments and 54 older manifests are gone\n";
    assert!(ran.status == 0 && ran.text().ends_with(back), "{}", ran.text());
    assert!(ran.stderr.contains(": 144 of 1024 entries and ") && ran.stderr.contains(&retire), "{}", ran.stderr);
    let json = compact(&place, &["--json"]);
    assert!(json.json().contains(",\"unchanged\":true,\"left\":{\"entries\":144,"), "{}", json.json());
    // The next append says the same, as long as its own old manifest is all that comes back.
    let batch = place.file.with_file_name("batch");
    put(&batch, &notes);
    let ran = rvf(&["append", text(&place.file), text(&batch)]);
    let said = ["127 of 1024 entries", " bytes and 1 entry back\n"];
    assert!(said.iter().all(|words| ran.stderr.contains(words)), "{}", ran.stderr);
}
