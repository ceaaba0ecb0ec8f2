//! A fresh file written beside the old one and renamed over it, stopped anywhere, with steps that
//! fail, and with unflushed sectors and names lost: the name has the old file or the whole new one.

mod common;

use common::cases::{apply, write, Step};
use common::sectors::{chosen, cuts, parts, stored};
use common::{compacted, sample, Random};
use rvf_tool::beside::{place, Names, Unplaced};
use rvf_tool::commit::Disk;
use std::cell::RefCell;
use std::io;

/// A step on the file beside, or on the names of the folder.
#[derive(Clone, Debug, PartialEq)]
enum Act {
    File(Step),
    Rename,
    SyncNames,
}

/// Takes the steps down; from one of them on they fail.
struct Recorder {
    acts: RefCell<Vec<Act>>,
    fails_at: usize,
}

impl Recorder {
    fn new(fails_at: usize) -> Recorder {
        Recorder { acts: RefCell::new(Vec::new()), fails_at }
    }

    fn act(&self, act: Act) -> io::Result<()> {
        let mut acts = self.acts.borrow_mut();
        acts.push(act);
        if acts.len() > self.fails_at { Err(io::Error::other("no room")) } else { Ok(()) }
    }
}

impl Disk for &Recorder {
    fn set_len(&mut self, length: u64) -> io::Result<()> {
        self.act(Act::File(Step::SetLen(length)))
    }

    fn write_at(&mut self, offset: u64, bytes: &[u8]) -> io::Result<()> {
        self.act(Act::File(Step::Write(offset, bytes.to_vec())))
    }

    fn sync(&mut self) -> io::Result<()> {
        self.act(Act::File(Step::Sync))
    }
}

impl Names for &Recorder {
    fn rename(&mut self) -> io::Result<()> {
        self.act(Act::Rename)
    }

    fn sync(&mut self) -> io::Result<()> {
        self.act(Act::SyncNames)
    }
}

fn recorded(bytes: &[u8], fails_at: usize) -> (Vec<Act>, Result<(), Unplaced>) {
    let recorder = Recorder::new(fails_at);
    let done = place(&mut &recorder, &mut &recorder, bytes);
    (recorder.acts.into_inner(), done)
}

fn steps(bytes: &[u8]) -> Vec<Act> {
    vec![
        Act::File(Step::SetLen(0)),
        Act::File(Step::Write(0, bytes.to_vec())),
        Act::File(Step::Sync),
        Act::Rename,
        Act::SyncNames,
    ]
}

/// The order that `place` promises.
#[test]
fn the_steps_are_these() {
    let fresh = compacted(&sample("clean.rvf")).expect("accepted");
    let (acts, done) = recorded(&fresh, usize::MAX);
    assert!(done.is_ok() && acts == steps(&fresh));
}

/// A step that fails is the last one, and whether the name was given is told.
#[test]
fn a_failing_step_is_the_last() {
    let fresh = compacted(&sample("clean.rvf")).expect("accepted");
    for fails_at in 0..5 {
        let (acts, done) = recorded(&fresh, fails_at);
        assert!(acts == steps(&fresh)[..=fails_at]);
        match done.expect_err("a step fails") {
            Unplaced::Before(_) => assert!(fails_at <= 3),
            Unplaced::Behind(_) => assert!(fails_at == 4),
        }
    }
}

/// The cases: the old file, the new one, and what an earlier kill has left beside.
fn cases() -> Vec<(Vec<u8>, Vec<u8>, Vec<u8>)> {
    let of = |name: &str, left: Vec<u8>| (sample(name), compacted(&sample(name)).expect("accepted"), left);
    vec![
        of("clean.rvf", Vec::new()),
        of("torn.rvf", vec![7; 9_000]),
        of("clean.rvf", sample("clean.rvf")),
        of("nested.rvf", compacted(&sample("clean.rvf")).expect("accepted")),
    ]
}

/// The file that the name has, and the one beside, after some steps.
fn after(acts: &[Act], old: &[u8], left: &[u8]) -> (Vec<u8>, Vec<u8>) {
    let (mut named, mut beside) = (old.to_vec(), left.to_vec());
    for act in acts {
        match act {
            Act::File(step) => apply(&mut beside, step),
            Act::Rename => named = std::mem::take(&mut beside),
            Act::SyncNames => (),
        }
    }
    (named, beside)
}

/// The program is stopped after any step, or in the middle of the write; the system goes on. The
/// name has the old file or the new one, and the next run uses up what is left beside.
#[test]
fn stopped_anywhere() {
    for (old, new, left) in cases() {
        let acts = steps(&new);
        for stop in 0..=acts.len() {
            let (named, beside) = after(&acts[..stop], &old, &left);
            assert!(named == if stop < 4 { &old[..] } else { &new });
            assert!(after(&acts, &named, &beside).0 == new);
        }
        for cut in cuts(new.len(), false) {
            let (named, mut beside) = after(&acts[..1], &old, &left);
            write(&mut beside, 0, &new[..cut]);
            assert!(named == old && after(&acts, &named, &beside) == (new.clone(), Vec::new()));
        }
    }
}

/// Whether the name has the old file or the new one after every power cut, and the new one once
/// it is said to be done. Of the steps on the file since its last flush any part may be stored,
/// and a rename may be stored or not until the names are flushed.
fn always_whole(old: &[u8], new: &[u8], left: &[u8], acts: &[Act], random: &mut Random) -> bool {
    let (mut flushed, mut pending) = (left.to_vec(), Vec::new());
    let mut whole = true;
    for (index, act) in acts.iter().enumerate() {
        match act {
            Act::File(Step::Sync) => pending.drain(..).for_each(|step| apply(&mut flushed, &step)),
            Act::File(step) => pending.push(step.clone()),
            Act::Rename | Act::SyncNames => (),
        }
        let unflushed: Vec<_> = pending.iter().flat_map(parts).collect();
        for _ in 0..60 {
            let beside = stored(&flushed, &unflushed, chosen(random));
            whole &= match (acts[..=index].contains(&Act::Rename), acts[..=index].contains(&Act::SyncNames)) {
                (false, _) => true,
                (true, false) => beside == old || beside == new,
                (true, true) => beside == new,
            };
        }
    }
    whole
}

#[test]
fn unflushed_sectors_and_names_are_lost() {
    let mut random = Random::new();
    for (old, new, left) in cases() {
        assert!(always_whole(&old, &new, &left, &recorded(&new, usize::MAX).0, &mut random));
        // Without the flush before it, the name could come to a file that is torn.
        let hasty: Vec<Act> = steps(&new).into_iter().filter(|act| *act != Act::File(Step::Sync)).collect();
        assert!(!always_whole(&old, &new, &left, &hasty, &mut random));
    }
}
