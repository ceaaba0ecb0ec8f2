//! `rvf append --vectors`: vectors written as text.

mod common;

use common::{bytes_of, folder, put, rvf, rvf_with_input, sample};

#[test]
fn vectors_as_text() {
    let (file, lines) = (folder("text").join("f.rvf"), folder("lines").join("lines"));
    put(&file, &sample("clean.rvf"));
    put(&lines, b"# x y z\n31 1 2 3\n\n7 0.5 -1e3 2 # newer\n");
    let name = file.to_str().expect("text");
    let words = ["append", name, "--vectors", lines.to_str().expect("text"), "--time", "8", "--retire", "5"];
    assert_eq!(rvf(&words).status, 0);
    assert_eq!(rvf(&["get", name, "7"]).text(), "vector 7, dim 3, dtype f32\n0.5 -1000 2\n");
    assert_eq!(rvf(&["get", name, "31"]).text(), "vector 31, dim 3, dtype f32\n1 2 3\n");
    let before = bytes_of(&file);
    let through = |input: &[u8]| rvf_with_input(&["append", name, "--vectors", "-"], input);
    let cases: [(&[u8], i32, &str); 4] = [
        (b"", 66, "standard input: has no vectors"),
        (b"1 2\n1 3\n", 66, "standard input: line 2: id 1 stands on line 1 already"),
        (&[b"1".as_slice(), &b" 2".repeat(1_025), b"\n"].concat(), 14, "standard input: refused 14: "),
        (&(0..4_097).flat_map(|id| format!("{id} 1\n").into_bytes()).collect::<Vec<u8>>(), 14, "4,096"),
    ];
    for (input, status, said) in cases {
        let ran = through(input);
        assert!(ran.status == status && ran.stderr.contains(said), "{}", ran.stderr);
        assert!(bytes_of(&file) == before);
    }
    // A producer that died in its last value has left no line feed.
    let cut = through(b"7 4 104 204\n31 4.25 104.25 20");
    assert_eq!(cut.status, 66);
    assert!(cut.stderr.contains("standard input: line 2: has no line feed at its end"), "{}", cut.stderr);
    assert!(cut.stderr.contains("--no-final-newline") && bytes_of(&file) == before);
    let rounded = through(b"7 16777217\n");
    assert!(rounded.status == 66 && rounded.stderr.contains("line 1: '16777217' would be rounded to 16777216"), "{}", rounded.stderr);
    assert!(bytes_of(&file) == before);
    // More than a batch holds: told as such, not as a short buffer. 261 vectors of 1,004
    // values fit into the payload's buffer, and with the batch's head around them into none.
    for (vectors, dim) in [(300, 1_000), (261, 1_004)] {
        let many: Vec<u8> = (0..vectors).flat_map(|id| format!("{id}{}\n", " 1".repeat(dim)).into_bytes()).collect();
        let ran = through(&many);
        assert!(ran.status == 10 && ran.stderr.contains("split the text"), "{}", ran.stderr);
        assert!(bytes_of(&file) == before);
    }
}

#[test]
fn what_is_said_to_be_right_is_taken() {
    let file = folder("text-options").join("f.rvf");
    put(&file, &sample("clean.rvf"));
    let name = file.to_str().expect("text");
    let words = ["append", name, "--vectors", "-", "--no-final-newline", "--round"];
    assert_eq!(rvf_with_input(&words, b"7 16777217 1e-50 204").status, 0);
    assert_eq!(rvf(&["get", name, "7"]).text(), "vector 7, dim 3, dtype f32\n16777216 0 204\n");
}

/// A file that the system gives another length than there is to read: neither a store nor a
/// text is taken for whole.
#[cfg(target_os = "linux")]
#[test]
fn inputs_of_another_length_than_they_say() {
    let file = folder("lengths").join("f.rvf");
    put(&file, &sample("clean.rvf"));
    // More to read than the length says, and less.
    let cases = [("/proc/version", "there is more to read than there should be"), ("/sys/kernel/mm/transparent_hugepage/enabled", "reading ended early")];
    for (path, wanted) in cases.into_iter().filter(|(path, _)| std::path::Path::new(path).exists()) {
        let name = file.to_str().expect("text");
        for words in [&["list", path][..], &["check", path], &["get", path, "1"], &["append", name, "--vectors", path], &["append", name, path]] {
            let ran = rvf(words);
            assert_eq!((ran.status, ran.text()), (74, ""), "{words:?}: {}", ran.stderr);
            assert!(ran.stderr.contains(wanted), "{}", ran.stderr);
        }
        assert!(bytes_of(&file) == sample("clean.rvf"));
    }
}
