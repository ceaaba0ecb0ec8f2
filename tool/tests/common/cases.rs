//! Appends to be stopped: the steps that commit each, and what must be answered around it.

use super::{answers, appended, end_of, sample, small_batch, Answers};
use rvf::{Body, Refusal};
use rvf_tool::commit::{commit, Disk};
use std::io;

/// What a commit does to a file, in order.
#[derive(Clone, Debug, PartialEq)]
pub enum Step {
    SetLen(u64),
    Write(u64, Vec<u8>),
    Sync,
}

#[derive(Default)]
struct Recorder(Vec<Step>);

impl Disk for Recorder {
    fn set_len(&mut self, length: u64) -> io::Result<()> {
        self.0.push(Step::SetLen(length));
        Ok(())
    }

    fn write_at(&mut self, offset: u64, bytes: &[u8]) -> io::Result<()> {
        self.0.push(Step::Write(offset, bytes.to_vec()));
        Ok(())
    }

    fn sync(&mut self) -> io::Result<()> {
        self.0.push(Step::Sync);
        Ok(())
    }
}

/// An append to a file, the steps that commit it, and what must be answered around it.
pub struct Case {
    pub old: Vec<u8>,
    pub new: Vec<u8>,
    pub steps: Vec<Step>,
    before: Answers,
    after: Answers,
    /// The next append made to the old file and to the new one.
    next_to_old: Vec<u8>,
    next_to_new: Vec<u8>,
}

pub fn next_append(file: &[u8]) -> Result<Vec<u8>, Refusal> {
    appended(file, &rvf::batch(&[Body { kind: 2, flags: 0, bytes: b"next" }]), &[], 1_234)
}

impl Case {
    pub fn new(old: Vec<u8>, batch: &[u8], retire: &[u64]) -> Case {
        let new = appended(&old, batch, retire, 99).expect("the append is accepted");
        let mut recorder = Recorder::default();
        let start = end_of(&old);
        commit(&mut recorder, start as u64, &new[start..]).expect("nothing fails here");
        let (before, after) = (answers(&old), answers(&new));
        assert_ne!(before, after);
        let (next_to_old, next_to_new) = (next_append(&old).expect("accepted"), next_append(&new).expect("accepted"));
        Case { old, new, steps: recorder.0, before, after, next_to_old, next_to_new }
    }

    /// A file that a stopped commit left. Returns whether it is the new one.
    pub fn must_be_sound(&self, left: &[u8]) -> bool {
        let now = answers(left);
        if now == self.after {
            assert!(left == self.new && next_append(left).as_ref() == Ok(&self.next_to_new));
            return true;
        }
        assert!(now == self.before, "{} bytes answer neither as before nor as after", left.len());
        // The tool would take the next append, but for a file whose length was stored and not its
        // last bytes: a manifest that lacks its checksum is not told from a damaged one.
        let alarmed = rvf::lost_behind(left).expect("within the limit").is_some();
        assert!(!alarmed || left == self.old || left.len() == self.new.len(), "{} bytes alarm", left.len());
        match next_append(left) {
            Ok(next) => assert!(next == self.next_to_old),
            // The rules: a first batch that is torn takes no append.
            Err(refusal) => assert!(self.old.is_empty() && !left.is_empty() && refusal == Refusal::NoManifest),
        }
        false
    }
}

pub fn apply(file: &mut Vec<u8>, step: &Step) {
    match step {
        Step::SetLen(length) => file.resize(*length as usize, 0),
        Step::Write(offset, bytes) => write(file, *offset as usize, bytes),
        Step::Sync => (),
    }
}

pub fn write(file: &mut Vec<u8>, offset: usize, bytes: &[u8]) {
    if !bytes.is_empty() {
        let end = offset + bytes.len();
        file.resize(file.len().max(end), 0);
        file[offset..end].copy_from_slice(bytes);
    }
}

/// A batch of one body that has so many bytes.
fn batch_of(length: usize) -> Vec<u8> {
    rvf::batch(&[Body { kind: 7, flags: 0, bytes: &vec![5; length] }])
}

/// What a writer that takes no care may leave: the same append once before, without the
/// sector of its header and one of its body. If the header alone came back, the manifest
/// behind it would be confirmed and the body be bad.
fn with_gaps(batch: &[u8]) -> Vec<u8> {
    let start = sample("clean.rvf").len();
    let mut file = appended(&sample("clean.rvf"), batch, &[], 99).expect("accepted");
    file[start..start + 512].fill(0);
    file[start + 1_024..start + 1_536].fill(0);
    file
}

/// The appends that are stopped: to clean and torn files, to one with more behind its end
/// than is written, to an empty one; small and not so small.
pub fn cases() -> Vec<Case> {
    let mut nearly = appended(&sample("clean.rvf"), &batch_of(9_000), &[], 50).expect("accepted");
    nearly.truncate(nearly.len() - 1);
    let long_body = batch_of(3_000);
    // A body that is a whole file must not be taken for this one's own.
    let nested = rvf::batch(&[Body { kind: 7, flags: 0, bytes: &sample("clean.rvf") }]);
    vec![
        Case::new(sample("clean.rvf"), &rvf::batch(&[]), &[5]),
        Case::new(appended(&[], &small_batch(), &[], 1).expect("accepted"), &batch_of(1_100), &[]),
        Case::new(sample("torn.rvf"), &small_batch(), &[2, 3]),
        Case::new(nearly, &small_batch(), &[]),
        Case::new(with_gaps(&long_body), &long_body, &[]),
        Case::new(sample("torn.rvf"), &nested, &[]),
        Case::new(Vec::new(), &small_batch(), &[]),
        Case::new(Vec::new(), &nested, &[]),
    ]
}
