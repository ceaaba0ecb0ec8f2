//! A cut told from damage: no cut of a batch alarms, and of single flipped bits each is answered
//! right, refused or warned of. The figures stand in the tests.

mod common;

use common::stores::{batches, latest, six};
use common::{appended, cases::next_append, end_of, sample};
use rvf::Body;

/// What came of flipping bits.
#[derive(Debug, Default, PartialEq, Eq)]
struct Figures {
    flips: usize,
    /// Answered as before, and the file opens as before.
    right: usize,
    refused: usize,
    /// Answered by an older position.
    older: usize,
    /// Lost batches are seen.
    warned: usize,
}

/// Flips every bit of a file, one at a time.
fn flip(file: &[u8]) -> Figures {
    let mut figures = Figures::default();
    let (opened, newest) = (rvf::open(file).map(|manifest| manifest.id), latest(file));
    let mut flipped = file.to_vec();
    for at in 0..file.len() {
        for bit in 0..8 {
            flipped[at] ^= 1 << bit;
            let answer = latest(&flipped);
            let warned = rvf::lost_behind(&flipped).expect("it is within the limit").is_some();
            // Whatever opens as an older file, or has an older position, must be warned of.
            let as_before = rvf::open(&flipped).map(|manifest| manifest.id) == opened;
            let right = as_before && answer == newest;
            assert!(right || answer.is_none() || warned, "byte {at}, bit {bit}: {answer:?}");
            assert!(as_before || warned || rvf::open(&flipped).is_err(), "byte {at}, bit {bit}");
            assert!(!(warned && as_before), "byte {at}, bit {bit}: nothing is lost");
            figures.flips += 1;
            figures.right += usize::from(right);
            figures.refused += usize::from(answer.is_none());
            figures.older += usize::from(answer.is_some() && answer != newest);
            figures.warned += usize::from(warned);
            flipped[at] ^= 1 << bit;
        }
    }
    figures
}

/// Three batches that hold one id. A third of the flips bring an older position, and all of
/// them are seen.
#[test]
fn every_flipped_bit_of_three_batches() {
    let wanted = Figures { flips: 108_544, right: 70_021, refused: 1_915, older: 36_608, warned: 37_499 };
    assert_eq!(flip(&batches(3)), wanted);
}

/// Six batches, bodies that hold whole files among them.
#[test]
fn every_flipped_bit_of_six_batches() {
    let files = six();
    let wanted = Figures { flips: 454_144, right: 406_325, refused: 1_915, older: 45_904, warned: 46_795 };
    assert_eq!(flip(files.last().expect("six")), wanted);
}

/// The first batch has no older one behind it: each flip is right or refused, and where its
/// manifest or what stands before it is damaged, that is told from a cut.
#[test]
fn every_flipped_bit_of_one_batch() {
    let wanted = Figures { flips: 35_328, right: 133, refused: 35_195, older: 0, warned: 34_171 };
    assert_eq!(flip(&batches(1)), wanted);
}

/// Every cut of every batch, at every byte: nothing is lost.
#[test]
fn no_cut_alarms() {
    let mut cuts = 0;
    let files = six();
    for pair in files.windows(2) {
        let start = end_of(&pair[0]);
        for length in start..pair[1].len() {
            assert_eq!(rvf::lost_behind(&pair[1][..length]), Ok(None), "{length} of {} bytes", pair[1].len());
            cuts += 1;
        }
        assert_eq!(rvf::lost_behind(&pair[1]), Ok(None));
    }
    assert_eq!((cuts, files[6].len()), (56_768, 56_768));
}

/// The longest batch there is, on the fullest directory: cut by its last byte it is a cut, and
/// a tail that is longer than it can be is none.
#[test]
fn the_longest_tail_is_a_cut() {
    let empty = Body { kind: 7, flags: 0, bytes: b"" };
    let mut file = Vec::new();
    while rvf::open(&file).map_or(0, |manifest| manifest.count) < 1_007 - 16 {
        file = appended(&file, &rvf::batch(&[empty; 16]), &[], 1).expect("accepted");
    }
    // Sixteen bodies with a byte more than a multiple of 64 each, in a batch of the longest length.
    let bytes = vec![3; 65_473];
    let last = vec![3; rvf::BATCH_LIMIT - 272 - 15 * bytes.len()];
    let bodies: Vec<Body> =
        (0..16).map(|index| Body { bytes: if index < 15 { &bytes } else { &last }, ..empty }).collect();
    let batch = rvf::batch(&bodies);
    assert_eq!(batch.len(), rvf::BATCH_LIMIT);
    let longest = appended(&file, &batch, &[], 2).expect("accepted");
    assert_eq!(rvf::lost_behind(&longest[..longest.len() - 1]), Ok(None));
    // Noise behind the end, longer than any batch.
    let mut noise = file.clone();
    noise.resize(file.len() + 1_103_712, 0x55);
    assert_eq!(rvf::lost_behind(&noise), Ok(None));
    noise.push(0x55);
    let lost = rvf::lost_behind(&noise).expect("within the limit").expect("longer than any batch");
    assert_eq!((lost.bytes, lost.manifests.len()), (1_103_713, 0));
}

/// A root in a body that names a place of its own inner file is none of this file's, and a
/// body that is whole is a body whatever stands in it.
#[test]
fn roots_in_bodies_do_not_count() {
    let start = sample("clean.rvf");
    // The body is what the next append would have written right behind its own header: its
    // root names the very place where it stands.
    let next = next_append(&start).expect("accepted");
    let mut forged = next[start.len()..].to_vec();
    let root = forged.len() - 4_096;
    for (field, add) in [(8, 64), (32, 64)] {
        let number = u64::from_le_bytes(forged[root + field..][..8].try_into().expect("eight bytes")) + add;
        forged[root + field..][..8].copy_from_slice(&number.to_le_bytes());
    }
    let crc = rvf::crc32c(&forged[root..root + 4_092]);
    forged[root + 4_092..].copy_from_slice(&crc.to_le_bytes());
    forged.extend([6; 100]);
    let file = appended(&start, &rvf::batch(&[Body { kind: 7, flags: 0, bytes: &forged }]), &[], 9).expect("accepted");
    let body_ends = (start.len() + 64 + forged.len()).next_multiple_of(64);
    for length in body_ends..file.len() {
        assert_eq!(rvf::lost_behind(&file[..length]), Ok(None), "{length}");
    }
    // Forged so, and in a body that is cut itself, it cannot be told from a lost one: whoever
    // forges a root is alarmed. No file that lies in a body names the places of this one.
    let cut = rvf::lost_behind(&file[..body_ends - 64]).expect("within the limit").expect("alarmed");
    assert_eq!(cut.newest().map(|manifest| manifest.offset), Some((start.len() + 64 + 64 + 64) as u64));
}
