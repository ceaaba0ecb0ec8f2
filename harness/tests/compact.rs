//! Compares the library with the reference on compaction of generated files, byte for byte, and
//! holds both against what §11 says of the fresh file: what it answers, where it ends, what later
//! appends get.

mod compaction;

use compaction::{appended, must_answer_alike, same};
use rvf_harness::calls::{Calls, Reference};
use rvf_harness::ffi::Library;
use rvf_harness::gen::batches::{batch, retirement, vector_file, vector_ids};
use rvf_harness::gen::stores::{store, Wish};
use rvf_harness::gen::{damage, files, Rng};
use rvf_harness::runner;
use rvf_harness::vectors::hex;

/// Both with buffers of noise; the whole buffers are compared.
fn same_in_noise(rng: &mut Rng, file: &[u8], room: usize) {
    let before = rng.bytes(room);
    let (mut ours, mut theirs) = (before.clone(), before.clone());
    let (mut out, mut wanted) = ([7; 3], [7; 3]);
    let number = Library.compact(file, &mut ours, &mut out);
    assert_eq!((number, out), (Reference.compact(file, &mut theirs, &mut wanted), wanted), "a buffer of {room} bytes");
    assert!(ours == theirs, "a buffer of {room} bytes, file {}", hex(file));
    let end = if number == 0 { out[0] as usize } else { 0 };
    assert!(ours[end..] == before[end..], "bytes behind the end, file {}", hex(file));
}

/// The rooms worth a look, for a fresh file that ends at `end`: around it, around its parts,
/// nothing, and more than it takes.
fn rooms(rng: &mut Rng, end: usize) -> Vec<usize> {
    let any = rng.below(end + 100);
    let near = [end - 1, end, end + 1, end + 64, 0, 1, 63, 64, end / 2, end - 4_096, end - 4_097, end - 64, any];
    (0..4).map(|_| rng.pick(&near)).chain([end, end - 1]).collect()
}

/// A list of appends on both files: each accepted or refused alike, and with the same id.
/// Returns how many were accepted.
fn must_append_alike(rng: &mut Rng, old: &[u8], fresh: &[u8]) -> usize {
    let (mut old, mut fresh, mut accepted) = (old.to_vec(), fresh.to_vec(), 0);
    for _ in 0..rng.range(1, 4) {
        let batch = batch(rng).bytes;
        let named = if rng.once_in(2) { &old } else { &fresh };
        let retire = retirement(rng, named);
        let time = rng.value();
        let on_old = appended(&Library, &mut old, &batch, &retire, time);
        let on_fresh = appended(&Library, &mut fresh, &batch, &retire, time);
        // Both are far from the limits, so nothing parts them.
        assert_eq!(on_old.number, on_fresh.number, "retire {retire:?}, batch {}", hex(&batch));
        if on_old.number == 0 {
            assert_eq!(on_old.out[1], on_fresh.out[1]);
            accepted += 1;
            for id in vector_ids(rng, 2) {
                assert_eq!(runner::vector(&Library, &old, id, 4_096), runner::vector(&Library, &fresh, id, 4_096));
            }
        }
    }
    accepted
}

fn generated(rng: &mut Rng) -> Vec<u8> {
    match rng.below(6) {
        0 => files::file(rng),
        1 => {
            let mut file = vector_file(rng);
            let tail = files::tail(rng, &mut file);
            [file.bytes, tail].concat()
        }
        _ => {
            let wish = Wish { damaged_live: rng.once_in(3), tail: rng.once_in(2) };
            let mut file = store(rng, wish);
            if rng.once_in(6) {
                damage(rng, &mut file);
            }
            file
        }
    }
}

fn compactions(seed: u64, count: usize) {
    let mut rng = Rng::new(seed);
    let (mut seen, mut accepted, mut smaller) = ([0usize; 10], 0, 0);
    for _ in 0..count {
        let file = generated(&mut rng);
        // Room for every fresh file: none ends behind the old manifest.
        let outcome = same(&file, file.len());
        seen[outcome.number as usize] += 1;
        let end = if outcome.number == 0 { outcome.out[0] as usize } else { 5_000 };
        for room in rooms(&mut rng, end) {
            let short = same(&file, room);
            let wanted = if outcome.number == 0 && room < end { 9 } else { outcome.number };
            assert_eq!(short.number, wanted, "room {room} of {end}");
            same_in_noise(&mut rng, &file, room);
            seen[9] += usize::from(short.number == 9);
        }
        if outcome.number == 0 {
            smaller += usize::from(end < file.len());
            must_answer_alike(&mut rng, &file, &outcome.written);
            accepted += must_append_alike(&mut rng, &file, &outcome.written);
        }
    }
    assert!([0, 2, 4, 9].iter().all(|&number| seen[number] > count / 40), "{seen:?}");
    assert!(accepted > count / 4 && smaller > count / 4, "{accepted} accepted, {smaller} smaller");
}

#[test]
fn compactions_first_half() {
    compactions(601, 4_000);
}

#[test]
fn compactions_second_half() {
    compactions(602, 4_000);
}

/// The binding's own function.
#[test]
fn the_binding_answers_alike() {
    let mut rng = Rng::new(607);
    let mut accepted = 0;
    for _ in 0..400 {
        let file = generated(&mut rng);
        let room = rng.pick(&[file.len(), 4_224, 0]);
        let (mut ours, mut theirs, mut out) = (vec![0xC3; room], vec![0xC3; room], [0; 3]);
        let number = Reference.compact(&file, &mut theirs, &mut out);
        let answer = rvf::compact(&file, &mut ours).map(|fresh| [fresh.end, fresh.id, fresh.count]);
        assert_eq!(answer.map_err(|refusal| refusal.number()), if number == 0 { Ok(out) } else { Err(number) });
        assert!(ours == theirs);
        accepted += usize::from(number == 0);
    }
    assert!(accepted > 50, "{accepted}");
}
