//! A commit that is stopped, or whose unflushed writes are lost: whatever is left answers as
//! the file before it, or as the whole new one, and takes the next append alike.

mod common;

use common::cases::{apply, cases, write, Case, Step};
use common::sectors::{chosen, cuts, parts, stored, Part};
use common::{end_of, Random};
use rvf_tool::commit::LAST;

/// The order that `commit` promises.
#[test]
fn the_steps_are_these() {
    for case in cases() {
        let start = end_of(&case.old);
        let body = case.new.len() - LAST;
        let wanted = [
            Step::SetLen(start as u64),
            Step::Sync,
            Step::Write(start as u64, case.new[start..body].to_vec()),
            Step::Sync,
            Step::Write(body as u64, case.new[body..].to_vec()),
            Step::Sync,
        ];
        assert!(case.steps == wanted);
    }
}

/// The program is stopped after any step, or in the middle of a write; the system goes on,
/// so what was written is there. The first case is stopped at every byte.
#[test]
fn stopped_anywhere() {
    for (index, case) in cases().iter().enumerate() {
        let mut file = case.old.clone();
        for step in &case.steps {
            if let Step::Write(offset, bytes) = step {
                for cut in cuts(bytes.len(), index == 0) {
                    let mut left = file.clone();
                    write(&mut left, *offset as usize, &bytes[..cut]);
                    let whole = case.must_be_sound(&left);
                    assert_eq!(whole, left == case.new);
                }
            }
            apply(&mut file, step);
            case.must_be_sound(&file);
        }
        assert!(case.must_be_sound(&file), "at the end the new batch is there");
    }
}

/// The steps between two flushes, each group with the file as it was flushed before.
fn groups(case: &Case) -> Vec<(Vec<u8>, Vec<Part>)> {
    let mut file = case.old.clone();
    let mut groups = Vec::new();
    for group in case.steps.split(|step| *step == Step::Sync) {
        groups.push((file.clone(), group.iter().flat_map(parts).collect()));
        group.iter().for_each(|step| apply(&mut file, step));
    }
    groups
}

/// A power cut: of what was not flushed, any part may be stored and any be lost. Every
/// length of a small append, with every subset of the sectors that such a length shows.
#[test]
fn every_subset_of_unflushed_sectors() {
    // The one whose body has a sector of its own.
    let case = &cases()[1];
    let mut files = 0;
    for (file, parts) in groups(case) {
        let (data, lengths): (Vec<Part>, Vec<Part>) = parts.into_iter().partition(|part| matches!(part, Part::Data { .. }));
        assert!(data.len() <= 11, "{} sectors", data.len());
        for known in 0..=lengths.len() {
            let shown = &data[..known.min(data.len())];
            let all = [&lengths[..known], shown].concat();
            for subset in 0..1usize << shown.len() {
                case.must_be_sound(&stored(&file, &all, |index| index < known || subset >> (index - known) & 1 == 1));
                files += 1;
            }
        }
    }
    assert!(files > 2_000, "{files}");
}

/// The same for all cases, by random subsets.
#[test]
fn random_subsets_of_unflushed_sectors() {
    let mut random = Random::new();
    for case in cases() {
        for (file, parts) in groups(&case) {
            for _ in 0..300 {
                case.must_be_sound(&stored(&file, &parts, chosen(&mut random)));
            }
        }
    }
}
