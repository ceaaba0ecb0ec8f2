//! What the tests share: the program run, files made in a folder of their own, and every
//! reading answer about a file, to be compared.

// Each test program uses a part of this.
#![allow(dead_code)]

pub mod cases;
pub mod json;
pub mod sectors;
pub mod stores;

use rvf::{Body, Component, Dtype, Encoding, Entry, Refusal, Vector, Vectors};
use std::ffi::OsStr;
use std::io::Write;
use std::path::{Path, PathBuf};
use std::process::{Command, Stdio};

/// What a run of the program left.
#[derive(Debug)]
pub struct Ran {
    pub status: i32,
    pub stdout: Vec<u8>,
    pub stderr: String,
}

impl Ran {
    pub fn text(&self) -> &str {
        std::str::from_utf8(&self.stdout).expect("text is printed")
    }

    /// Standard output as one JSON value and a line feed.
    #[track_caller]
    pub fn json(&self) -> &str {
        let text = self.text().strip_suffix('\n').expect("a line feed ends the value");
        json::must_be_valid(text);
        text
    }
}

/// The lines of a refusal behind the first, without `rvf: `.
#[track_caller]
pub fn why(ran: &Ran, blamed: &Path, number: i32) -> Vec<String> {
    assert_eq!((ran.status, ran.text()), (number, ""), "{}", ran.stderr);
    let mut lines = ran.stderr.lines().map(|line| line.strip_prefix("rvf: ").expect("the program's name").to_string());
    let first = lines.next().expect("a line");
    assert!(first.starts_with(&format!("{}: refused {number}: ", blamed.display())), "{first}");
    lines.collect()
}

pub fn program() -> Command {
    Command::new(env!("CARGO_BIN_EXE_rvf"))
}

/// Runs the program on words.
pub fn rvf<W: AsRef<OsStr>>(words: &[W]) -> Ran {
    rvf_with_input(words, b"")
}

/// Runs the program with bytes on its standard input.
pub fn rvf_with_input<W: AsRef<OsStr>>(words: &[W], input: &[u8]) -> Ran {
    let mut command = program();
    let piped = command.args(words).stdin(Stdio::piped()).stdout(Stdio::piped()).stderr(Stdio::piped());
    let mut child = piped.spawn().expect("the program starts");
    // It may end without reading: then the pipe is closed, and that is fine.
    let _ = child.stdin.take().expect("a pipe").write_all(input);
    let output = child.wait_with_output().expect("the program ends");
    let status = output.status.code().expect("the program is not killed");
    assert_ne!(status, 101, "it panicked: {}", String::from_utf8_lossy(&output.stderr));
    Ran { status, stdout: output.stdout, stderr: String::from_utf8(output.stderr).expect("text") }
}

/// A fresh folder of this name.
pub fn folder(name: &str) -> PathBuf {
    let path = Path::new(env!("CARGO_TARGET_TMPDIR")).join(name);
    let _ = std::fs::remove_dir_all(&path);
    std::fs::create_dir_all(&path).expect("a folder to work in");
    path
}

pub fn sample_path(name: &str) -> PathBuf {
    Path::new(env!("CARGO_MANIFEST_DIR")).join("../samples").join(name)
}

pub fn sample(name: &str) -> Vec<u8> {
    std::fs::read(sample_path(name)).expect("the sample is in the repository")
}

pub fn put(path: &Path, bytes: &[u8]) {
    std::fs::write(path, bytes).expect("the file is written");
}

pub fn bytes_of(path: &Path) -> Vec<u8> {
    std::fs::read(path).expect("the file is there")
}

pub fn text(path: &Path) -> &str {
    path.to_str().expect("the path is text")
}

/// A folder with a file and a batch in it.
pub struct Place {
    pub file: PathBuf,
    pub batch: PathBuf,
}

impl Place {
    pub fn new(name: &str, file: &[u8], batch: &[u8]) -> Place {
        let folder = folder(name);
        let place = Place { file: folder.join("f.rvf"), batch: folder.join("batch") };
        put(&place.file, file);
        put(&place.batch, batch);
        place
    }

    pub fn append(&self, words: &[&str]) -> Ran {
        rvf(&[&["append", text(&self.file), text(&self.batch)], words].concat())
    }
}

/// A folder with a file in it and nothing else.
pub fn alone(name: &str, file: &[u8]) -> Place {
    let place = Place::new(name, file, b"");
    std::fs::remove_file(&place.batch).expect("it is there");
    place
}

pub fn compact(place: &Place, words: &[&str]) -> Ran {
    rvf(&[&["compact", text(&place.file)], words].concat())
}

/// A small generator with a fixed seed, so that a failure comes back.
pub struct Random(u64);

impl Random {
    pub fn new() -> Random {
        Random(0x9E37_79B9_7F4A_7C15)
    }

    pub fn next(&mut self) -> u64 {
        self.0 ^= self.0 << 13;
        self.0 ^= self.0 >> 7;
        self.0 ^= self.0 << 17;
        self.0
    }

    pub fn below(&mut self, bound: usize) -> usize {
        (self.next() >> 33) as usize % bound
    }
}

/// A payload of u8 vectors of dim 2.
pub fn small_vectors(ids: &[u64], fill: u8) -> Vec<u8> {
    let columns: Vec<u8> = (0..2 * ids.len()).map(|index| fill.wrapping_add(index as u8)).collect();
    let input = Vectors { ids, columns: &columns, dim: 2, dtype: Dtype::U8, tier: 0, encoding: Encoding::Raw };
    rvf::vectors(&input).expect("the input is right")
}

/// A batch of one segment of vectors and a note.
pub fn small_batch() -> Vec<u8> {
    let vectors = small_vectors(&[7, 30, 31], 40);
    rvf::batch(&[Body { kind: rvf::VEC, flags: 0, bytes: &vectors }, Body { kind: 7, flags: 8, bytes: b"third contact" }])
}

/// The file after an append, made in memory by the binding alone.
pub fn appended(file: &[u8], batch: &[u8], retire: &[u64], time: u64) -> Result<Vec<u8>, Refusal> {
    let mut buffer = file.to_vec();
    // Room for every batch and manifest that could come.
    buffer.resize((file.len() + batch.len() + 60_000).min(rvf::FILE_LIMIT), 0);
    let end = rvf::append(&mut buffer, file.len(), batch, retire, time)?.end;
    buffer.truncate(end as usize);
    Ok(buffer)
}

/// The fresh file of a compaction, made in memory by the binding alone.
pub fn compacted(file: &[u8]) -> Result<Vec<u8>, Refusal> {
    let mut buffer = vec![0; file.len()];
    let end = rvf::compact(file, &mut buffer)?.end;
    buffer.truncate(end as usize);
    Ok(buffer)
}

/// The names in the folder of a file, sorted.
pub fn names_beside(path: &Path) -> Vec<String> {
    let entries = std::fs::read_dir(path.parent().expect("a folder")).expect("it is there");
    let mut names: Vec<String> =
        entries.map(|entry| entry.expect("it is there").file_name().into_string().expect("text")).collect();
    names.sort();
    names
}

/// Where a file's manifest ends, 0 for an empty file.
pub fn end_of(file: &[u8]) -> usize {
    rvf::open(file).map_or(0, |manifest| manifest.end as usize)
}

/// All that the reading calls answer about a file but the boundaries tried.
#[derive(Debug, PartialEq)]
pub struct Answers {
    opened: Result<[u64; 4], Refusal>,
    entries: Result<Vec<Entry>, Refusal>,
    /// Place and bytes of each payload.
    payloads: Vec<Result<(usize, Vec<u8>), Refusal>>,
    vectors: Vec<Result<Vector, Refusal>>,
    components: Vec<Result<Component, Refusal>>,
}

impl Answers {
    pub fn vectors(&self) -> &[Result<Vector, Refusal>] {
        &self.vectors
    }
}

pub fn answers(file: &[u8]) -> Answers {
    let opened = rvf::open(file).map_err(Refusal::from);
    let place = |part: &[u8]| (part.as_ptr() as usize - file.as_ptr() as usize, part.to_vec());
    Answers {
        opened: opened.map(|m| [m.offset, m.end, m.id, m.count]),
        entries: rvf::entries(file),
        payloads: (0..16).map(|id| rvf::payload(file, id).map(place)).collect(),
        vectors: [7, 21, 30, 31, 99].into_iter().map(|id| rvf::vector(file, id)).collect(),
        components: [(7, 1), (30, 2), (31, 9)].into_iter().map(|(id, index)| rvf::component(file, id, index)).collect(),
    }
}
