//! The real program stopped in the middle of an append or a compaction: by a limit on the length
//! of files, and by a kill at some moment. What is left answers as before, or as the new file.
#![cfg(unix)]

mod common;

use common::{
    alone, answers, appended, bytes_of, compacted, end_of, names_beside, program, put, rvf, sample, small_batch, text,
    Place,
};
use rvf::Body;
use std::os::unix::process::ExitStatusExt;
use std::process::{Command, Output, Stdio};
use std::time::{Duration, Instant};

const TIME: &str = "99";

/// Runs the program under a limit on the length of files, in blocks of the shell.
fn limited(words: &[&str], blocks: usize, ignoring: bool) -> Output {
    let trap = if ignoring { "trap '' XFSZ; " } else { "" };
    // No core file, should the signal leave one.
    let script = format!("ulimit -c 0; {trap}ulimit -f {blocks}; exec \"$0\" \"$@\"");
    let mut shell = Command::new("sh");
    shell.args(["-c", &script, env!("CARGO_BIN_EXE_rvf")]).args(words).output().expect("the shell runs")
}

/// An append that is to be stopped: the file before it and after it.
struct Stopped {
    place: Place,
    old: Vec<u8>,
    new: Vec<u8>,
}

impl Stopped {
    fn new(name: &str, old: Vec<u8>, batch: &[u8]) -> Stopped {
        let new = appended(&old, batch, &[], 99).expect("the append is accepted");
        Stopped { place: Place::new(name, &old, batch), old, new }
    }

    fn words(&self) -> [&str; 5] {
        ["append", text(&self.place.file), text(&self.place.batch), "--time", TIME]
    }

    /// The file as a stopped append left it: as before or the new one, and whichever it is,
    /// the next append by the program gives what it gives on a file that was never stopped.
    fn must_be_sound(&self) -> bool {
        let file = &self.place.file;
        let left = bytes_of(file);
        let whole = left == self.new;
        let as_if: &[u8] = if whole { &self.new } else { &self.old };
        assert!(answers(&left) == answers(as_if), "{} bytes answer otherwise", left.len());
        let next = rvf(&["retire", text(file), "5", "--time", TIME]);
        assert_eq!(next.status, 0, "{}", next.stderr);
        assert!(bytes_of(file) == appended(as_if, &rvf::batch(&[]), &[5], 99).expect("accepted"));
        put(file, &self.old);
        whole
    }
}

/// The file may not grow as far as the append needs, and the program is killed for it.
#[test]
fn stopped_by_a_limit() {
    let mut killed = 0;
    for old in [sample("clean.rvf"), sample("torn.rvf")] {
        let stopped = Stopped::new("limit", old, &small_batch());
        // A block is 512 or 1,024 bytes, so these reach from below the file to above it.
        for blocks in 12..=40 {
            let ran = limited(&stopped.words(), blocks, false);
            killed += usize::from(ran.status.signal().is_some());
            assert!(ran.status.signal().is_some() || ran.status.success(), "{ran:?}");
            assert_eq!(stopped.must_be_sound(), ran.status.success());
        }
    }
    assert!(killed > 4, "{killed} were killed");
}

/// The same with the signal ignored: the write fails, and the program takes it back.
#[test]
fn a_failing_write_is_taken_back() {
    let mut failed = 0;
    let stopped = Stopped::new("taken-back", sample("torn.rvf"), &small_batch());
    for blocks in 12..=40 {
        let ran = limited(&stopped.words(), blocks, true);
        if !ran.status.success() {
            failed += 1;
            assert_eq!(ran.status.code(), Some(74));
            let said = String::from_utf8_lossy(&ran.stderr).into_owned();
            assert!(said.starts_with(&format!("rvf: {}: writing failed: ", stopped.place.file.display())), "{said}");
            assert!(said.ends_with("what was written is taken back, the file answers as before\n"), "{said}");
            assert!(bytes_of(&stopped.place.file) == stopped.old[..end_of(&stopped.old)]);
        }
        assert_eq!(stopped.must_be_sound(), ran.status.success());
    }
    assert!(failed > 2, "{failed} failed");
}

/// A file of some million bytes and the longest batch that goes in.
fn large() -> Stopped {
    let body = vec![3; 1_000_000];
    let batch = rvf::batch(&[Body { kind: 8, flags: 0, bytes: &body }]);
    let mut old = sample("clean.rvf");
    for time in 0..2 {
        old = appended(&old, &batch, &[], time).expect("accepted");
    }
    Stopped::new("kill", old, &batch)
}

const KILLS: u32 = 200;

/// Kills the program at moments spread over the time that it takes. `left` looks at what each
/// kill has left, says whether the work is done, and puts everything back.
fn kill_often(words: &[&str], mut left: impl FnMut() -> bool) {
    let start_it = || program().args(words).stdout(Stdio::null()).spawn().expect("it starts");
    let start = Instant::now();
    assert!(start_it().wait().expect("it ends").success());
    let takes = start.elapsed().min(Duration::from_millis(100));
    assert!(left());
    let mut whole = 0;
    for kill in 0..KILLS {
        let mut child = start_it();
        std::thread::sleep(takes * kill / KILLS);
        child.kill().expect("it is ours");
        let ended = child.wait().expect("it ends");
        let done = left();
        // Whatever says that it is done is done.
        assert!(done || !ended.success());
        whole += u32::from(done);
    }
    println!("{whole} of {KILLS} were done before the kill");
    assert!(whole < KILLS, "none was stopped");
}

#[test]
fn append_killed_at_any_moment() {
    let stopped = large();
    kill_often(&stopped.words(), || stopped.must_be_sound());
}

/// A first batch: the file is there and whole, or it is not there, and the next one starts it.
#[test]
fn create_killed_at_any_moment() {
    let body = vec![3; 1_000_000];
    let batch = rvf::batch(&[Body { kind: 8, flags: 0, bytes: &body }]);
    let place = Place::new("kill-create", b"", &batch);
    std::fs::remove_file(&place.file).expect("it is there");
    let once = appended(&[], &batch, &[], 99).expect("accepted");
    let words = ["append", text(&place.file), text(&place.batch), "--time", TIME, "--create"];
    kill_often(&words, || {
        let done = place.file.exists();
        assert!(!done || bytes_of(&place.file) == once, "a torn first batch");
        let _ = std::fs::remove_file(&place.file);
        let again = rvf(&words);
        assert!(again.status == 0 && bytes_of(&place.file) == once, "{}", again.stderr);
        std::fs::remove_file(&place.file).expect("it is there");
        let others = std::fs::read_dir(place.batch.parent().expect("a folder")).expect("it is there").count();
        assert_eq!(others, 1, "something is left beside the batch");
        done
    });
}

/// A compaction that is to be stopped: the file has its old bytes or the new ones, whatever is
/// left beside it is used up by the next run, and nothing else stays.
struct Compaction {
    place: Place,
    old: Vec<u8>,
    fresh: Vec<u8>,
}

impl Compaction {
    fn new(name: &str, old: Vec<u8>) -> Compaction {
        let place = alone(name, &old);
        let fresh = compacted(&old).expect("accepted");
        assert!(fresh != old);
        Compaction { place, old, fresh }
    }

    fn words(&self) -> [&str; 2] {
        ["compact", text(&self.place.file)]
    }

    /// Returns whether it is done, and puts everything back.
    fn must_be_sound(&self) -> bool {
        let file = &self.place.file;
        let left = bytes_of(file);
        let done = left == self.fresh;
        assert!(done || left == self.old, "{} bytes are neither the old file nor the new one", left.len());
        let again = rvf(&self.words());
        assert!(again.status == 0 && bytes_of(file) == self.fresh, "{}", again.stderr);
        assert_eq!(names_beside(file), ["f.rvf"]);
        put(file, &self.old);
        done
    }
}

#[test]
fn compact_stopped_by_a_limit() {
    let (mut killed, mut failed) = (0, 0);
    for old in [sample("clean.rvf"), sample("torn.rvf")] {
        let stopped = Compaction::new("limit-compact", old);
        for blocks in 1..=20 {
            let ran = limited(&stopped.words(), blocks, false);
            killed += usize::from(ran.status.signal().is_some());
            assert!(ran.status.signal().is_some() || ran.status.success(), "{ran:?}");
            assert_eq!(stopped.must_be_sound(), ran.status.success());
            // With the signal ignored the write fails, and the file beside is taken away again.
            let ran = limited(&stopped.words(), blocks, true);
            if !ran.status.success() {
                failed += 1;
                let said = String::from_utf8_lossy(&ran.stderr).into_owned();
                assert!(ran.status.code() == Some(74) && said.ends_with("; the file stays as it is\n"), "{said}");
                assert_eq!(names_beside(&stopped.place.file), ["f.rvf"]);
            }
            assert_eq!(stopped.must_be_sound(), ran.status.success());
        }
    }
    assert!(killed > 4 && failed > 4, "{killed} were killed, {failed} failed");
}

#[test]
fn compact_killed_at_any_moment() {
    let body = vec![3; 1_000_000];
    let batch = rvf::batch(&[Body { kind: 8, flags: 0, bytes: &body }]);
    let mut old = sample("clean.rvf");
    for time in 0..4 {
        old = appended(&old, &batch, if time == 2 { &[7] } else { &[] }, time).expect("accepted");
    }
    let stopped = Compaction::new("kill-compact", old);
    kill_often(&stopped.words(), || stopped.must_be_sound());
}
