//! The binding's test for lost batches, compared with the plain words of its two signs, on
//! generated files, cut and damaged, with bodies that hold manifests of true places.

use rvf_harness::gen::batches::vector_file;
use rvf_harness::gen::{damage, files, Rng};
use rvf_harness::reference::segment::{HEADER, MAGIC, MANIFEST};
use rvf_harness::reference::{crc, manifest, round64};

/// Places and ids of the manifests behind a place, each sign looked for by itself.
fn signs(file: &[u8], end: usize) -> Vec<(usize, u64)> {
    let number = |at: usize| u64::from_le_bytes(file[at..at + 8].try_into().expect("eight bytes"));
    let mut found = Vec::new();
    let (mut at, mut bodies) = (end, Vec::new());
    while at + HEADER <= file.len() && file[at..at + 4] == MAGIC {
        let length = number(at + 16);
        if length > file.len() as u64 || at + HEADER + round64(length as usize) > file.len() {
            break;
        }
        let payload = &file[at + HEADER..at + HEADER + length as usize];
        let next = at + HEADER + round64(length as usize);
        if file[at + 5] == MANIFEST {
            found.push((at, number(at + 8)));
        } else if file[at + 40..at + 44] == crc::crc32c(payload).to_le_bytes() {
            bodies.push(at..next);
        }
        at = next;
    }
    for root in (end..file.len().saturating_sub(4_095)).step_by(64) {
        let agrees = file[root..root + 4] == *b"RVM0" && number(root + 32) == root as u64 + 4_096;
        // A record so long that its manifest would begin before the end names no such place.
        let record = number(root + 24);
        if !agrees || record > root as u64 {
            continue;
        }
        let room = HEADER + round64(record as usize);
        let named = number(root + 8) as usize;
        let right = crc::crc32c(&file[root..root + 4_092]).to_le_bytes() == file[root + 4_092..root + 4_096];
        let in_body = bodies.iter().any(|body| body.contains(&root) && body.start != named);
        if right && !in_body && root >= room + end && named == root - room {
            found.retain(|(place, _)| *place != named);
            found.push((named, number(root + 16)));
        }
    }
    found.sort();
    found
}

/// Whether something is lost, by the binding and by the signs.
fn compared(file: &[u8]) -> bool {
    let end = manifest::open(file).map_or(0, |opened| opened.end);
    let lost = rvf::lost_behind(file).expect("it is within the limit");
    let wanted = signs(file, end);
    let places = |lost: &rvf::Lost| lost.manifests.iter().map(|found| (found.offset as usize, found.id)).collect();
    assert_eq!(lost.as_ref().map_or(Vec::new(), places), wanted);
    // None of these files has a tail that is longer than any batch.
    assert_eq!(lost.is_some(), !wanted.is_empty());
    assert!(lost.is_none_or(|lost| (lost.end, lost.bytes) == (end as u64, (file.len() - end) as u64)));
    !wanted.is_empty()
}

#[test]
fn lost_batches_are_those_of_the_two_signs() {
    let mut rng = Rng::new(0x1057);
    let (mut lost, mut none) = (0, 0);
    for case in 0..6_000 {
        let mut file = if case % 2 == 0 { files::file(&mut rng) } else { vector_file(&mut rng).bytes };
        if rng.once_in(3) {
            damage(&mut rng, &mut file);
        }
        if compared(&file) {
            lost += 1;
        } else {
            none += 1;
        }
    }
    assert!(lost > 500 && none > 500, "{lost} lost, {none} not");
    assert_eq!(rvf::lost_behind(&[]), Ok(None));
    assert_eq!(rvf::lost_behind(&vec![0; rvf::FILE_LIMIT + 1]), Err(rvf::Refusal::FileTooLong));
}

/// A root or a header at every boundary: the time stays linear, and both judge alike.
#[test]
fn hostile_tails_are_judged_alike() {
    for formed in [false, true] {
        let mut file = files::Builder::new(0, 3);
        file.manifest(0, 3, &[]);
        let mut bytes = file.bytes.clone();
        bytes.extend(files::candidates(bytes.len(), 10_000, 100, formed));
        compared(&bytes);
    }
    let boundaries = rvf::FILE_LIMIT / 64;
    let candidates = files::candidates(0, boundaries, 1_000, true);
    // A manifest of no bytes at every boundary.
    let mut empty = vec![0; rvf::FILE_LIMIT];
    for header in empty.chunks_exact_mut(HEADER) {
        header[..6].copy_from_slice(b"RVFS\x01\x05");
    }
    for (bytes, least) in [(candidates, 1), (empty, boundaries)] {
        let start = std::time::Instant::now();
        let lost = rvf::lost_behind(&bytes).expect("it is at the limit").expect("it is lost");
        assert!(lost.manifests.len() >= least && start.elapsed().as_secs_f64() < 5.0, "{:?}", start.elapsed());
    }
}
