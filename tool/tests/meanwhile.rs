//! Others at work on the same file: a second append is turned away, and a reader sees the file
//! before an append or after it, nothing between.

mod common;

use common::{answers, appended, bytes_of, compacted, names_beside, rvf, sample, small_batch, text, Answers, Place};
use std::sync::atomic::{AtomicBool, Ordering};
use std::time::{Duration, Instant};

fn place(name: &str) -> Place {
    Place::new(name, &sample("clean.rvf"), &small_batch())
}

fn busy(place: &Place) -> String {
    let words = "another append or compaction is at work on it; try again, or add --wait SECONDS";
    format!("rvf: {}: {words}\n", place.file.display())
}

#[test]
fn of_two_appends_at_once_one_is_turned_away() {
    let place = place("locked");
    let held = std::fs::File::open(&place.file).expect("it opens");
    held.lock().expect("it is locked");
    let ran = place.append(&["--time", "9"]);
    assert_eq!((ran.status, ran.stderr), (75, busy(&place)));
    assert!(bytes_of(&place.file) == sample("clean.rvf"));
    // Reading goes on meanwhile.
    assert_eq!(rvf(&["list", text(&place.file)]).status, 0);
    // Not only dropped: a program that another test is just starting may share the handle.
    held.unlock().expect("it was locked");
    assert_eq!(place.append(&["--time", "9"]).status, 0);
}

/// With `--wait` the second waits for the first, and no longer than it is told to.
#[test]
fn the_lock_is_waited_for() {
    let place = place("waiting");
    let held = std::fs::File::open(&place.file).expect("it opens");
    held.lock().expect("it is locked");
    let start = Instant::now();
    assert_eq!(place.append(&["--wait=1"]).status, 75);
    assert!(start.elapsed() >= Duration::from_secs(1));
    let ran = std::thread::scope(|scope| {
        let waiting = scope.spawn(|| place.append(&["--wait", "30", "--time", "9"]));
        std::thread::sleep(Duration::from_millis(300));
        assert!(bytes_of(&place.file) == sample("clean.rvf"));
        held.unlock().expect("it was locked");
        waiting.join().expect("no panic")
    });
    assert_eq!(ran.status, 0, "{}", ran.stderr);
    assert!(start.elapsed() < Duration::from_secs(20));
    assert!(bytes_of(&place.file) == states(1)[1]);
}

/// Many appends at once: each is accepted or turned away, and the file holds the accepted.
#[test]
fn many_appends_at_once() {
    let place = place("many");
    let statuses: Vec<i32> = std::thread::scope(|scope| {
        let runs: Vec<_> = (0..8).map(|_| scope.spawn(|| place.append(&["--time", "9"]).status)).collect();
        runs.into_iter().map(|run| run.join().expect("no panic")).collect()
    });
    assert!(statuses.iter().all(|status| [0, 75].contains(status)), "{statuses:?}");
    let accepted = statuses.iter().filter(|status| **status == 0).count();
    assert!(accepted >= 1);
    let states = states(accepted);
    assert!(bytes_of(&place.file) == states[accepted]);
}

/// The clean sample, and the file after each of so many appends.
fn states(appends: usize) -> Vec<Vec<u8>> {
    let mut states = vec![sample("clean.rvf")];
    for _ in 0..appends {
        let last = states.last().expect("there is a first");
        states.push(appended(last, &small_batch(), &[], 9).expect("accepted"));
    }
    states
}

/// Reading without a lock, again and again, while appends go on.
#[test]
fn a_reader_sees_a_whole_state() {
    const APPENDS: usize = 12;
    let place = place("reader");
    let states: Vec<Answers> = states(APPENDS).iter().map(|file| answers(file)).collect();
    let done = AtomicBool::new(false);
    let start = Instant::now();
    std::thread::scope(|scope| {
        scope.spawn(|| {
            let statuses: Vec<i32> = (0..APPENDS).map(|_| place.append(&["--time", "9"]).status).collect();
            done.store(true, Ordering::SeqCst);
            assert_eq!(statuses, [0; APPENDS]);
        });
        let mut last = 0;
        while !done.load(Ordering::SeqCst) && start.elapsed() < Duration::from_secs(30) {
            let now = answers(&bytes_of(&place.file));
            let state = states.iter().position(|state| *state == now).expect("an answer of one of the states");
            assert!(state >= last, "the file went back from {last} to {state}");
            last = state;
        }
    });
    assert!(answers(&bytes_of(&place.file)) == states[APPENDS]);
}

/// A compaction takes its turn like an append: it is turned away, or waits.
#[test]
fn a_compaction_keeps_to_the_lock() {
    let place = place("locked-compact");
    let file = text(&place.file);
    let held = std::fs::File::open(&place.file).expect("it opens");
    held.lock().expect("it is locked");
    let ran = rvf(&["compact", file]);
    assert_eq!((ran.status, ran.stderr), (75, busy(&place)));
    // What does not write the file needs no lock.
    assert_eq!(rvf(&["compact", file, "--dry-run"]).status, 0);
    assert_eq!(rvf(&["compact", file, "--to", &format!("{file}-new")]).status, 0);
    assert!(bytes_of(&place.file) == sample("clean.rvf"));
    let ran = std::thread::scope(|scope| {
        let waiting = scope.spawn(|| rvf(&["compact", file, "--wait", "30"]));
        std::thread::sleep(Duration::from_millis(300));
        assert!(bytes_of(&place.file) == sample("clean.rvf"));
        held.unlock().expect("it was locked");
        waiting.join().expect("no panic")
    });
    assert_eq!(ran.status, 0, "{}", ran.stderr);
    assert!(bytes_of(&place.file) == compacted(&sample("clean.rvf")).expect("accepted"));
}

/// An append that has waited for the lock of a file whose name meanwhile went to a fresh one
/// goes to the fresh one.
#[cfg(unix)]
#[test]
fn an_append_follows_the_name() {
    let place = place("renamed");
    let held = std::fs::File::open(&place.file).expect("it opens");
    held.lock().expect("it is locked");
    let ran = std::thread::scope(|scope| {
        let waiting = scope.spawn(|| place.append(&["--wait", "30", "--time", "9"]));
        std::thread::sleep(Duration::from_millis(300));
        // What a compaction does at its end.
        let beside = place.file.with_file_name("beside");
        std::fs::write(&beside, compacted(&sample("clean.rvf")).expect("accepted")).expect("it is written");
        std::fs::rename(&beside, &place.file).expect("it is renamed");
        held.unlock().expect("it was locked");
        waiting.join().expect("no panic")
    });
    assert_eq!(ran.status, 0, "{}", ran.stderr);
    let wanted = appended(&compacted(&sample("clean.rvf")).expect("accepted"), &small_batch(), &[], 9);
    assert!(Ok(bytes_of(&place.file)) == wanted);
}

/// Appends and compactions at once: each waits for its turn, no batch is lost, and whoever reads
/// meanwhile finds a whole file with the positions of one of the states, never of an older one.
#[test]
fn appends_and_compactions_at_once() {
    const APPENDS: usize = 8;
    let place = place("mixed");
    let states: Vec<Answers> = states(APPENDS).iter().map(|file| answers(file)).collect();
    let done = AtomicBool::new(false);
    std::thread::scope(|scope| {
        let append = || (0..APPENDS / 2).map(|_| place.append(&["--time", "9", "--wait", "60"]).status).sum::<i32>();
        let compact = || (0..6).map(|_| rvf(&["compact", text(&place.file), "--wait", "60"]).status).sum::<i32>();
        let reader = scope.spawn(|| {
            let mut reads = 0;
            while !done.load(Ordering::SeqCst) {
                let file = bytes_of(&place.file);
                let now = answers(&file);
                // Positions change with the first append and not again, so it is the ids that tell the states apart.
                let id = rvf::open(&file).expect("a whole file").id as usize;
                assert!((id - 6).is_multiple_of(3) && now.vectors() == states[(id - 6) / 3].vectors(), "manifest {id}");
                reads += 1;
            }
            reads
        });
        let runs = [scope.spawn(append), scope.spawn(append), scope.spawn(compact), scope.spawn(compact)];
        let statuses = runs.map(|run| run.join().expect("no panic"));
        done.store(true, Ordering::SeqCst);
        assert_eq!(statuses, [0; 4]);
        assert!(reader.join().expect("no panic") > 0);
    });
    assert_eq!(rvf(&["compact", text(&place.file)]).status, 0);
    // All batches are there: two segments each, behind the three of the clean sample that are live.
    let ids: Vec<u64> = rvf::entries(&bytes_of(&place.file)).expect("it opens").iter().map(|entry| entry.id).collect();
    let of_batches = (0..APPENDS as u64).flat_map(|number| [7 + 3 * number, 8 + 3 * number]);
    assert_eq!(ids, [2, 3, 5].into_iter().chain(of_batches).collect::<Vec<u64>>());
    assert_eq!(names_beside(&place.file), ["batch", "f.rvf"]);
}
