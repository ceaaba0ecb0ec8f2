//! Batches that break a rule: which, and where; and the tool's judgement is the library's.

mod common;

use common::stores::body;
use common::{put, sample, small_batch, small_vectors, why, Place, Random};
use rvf::{Body, Refusal};
use rvf_tool::batch::bodies;

/// A batch that breaks a rule is the batch's fault; its line or byte is named.
#[test]
fn batches_that_break_a_rule() {
    let good = small_batch();
    let changed = |at: usize, byte: u8| {
        let mut batch = good.clone();
        batch[at] = byte;
        batch
    };
    let cases = [
        (Vec::new(), "it has 0 bytes, a batch has 16 to 1048576"),
        (vec![0; rvf::BATCH_LIMIT + 1], "it has more than 1048576 bytes, a batch has 16 to 1048576"),
        (changed(0, 17), "byte 0: the number of bodies is 17, a batch has at most 16"),
        (changed(9, 1), "byte 9: must be zero"),
        (good[..40].to_vec(), "it ends at byte 40, before line 2 does"),
        (changed(16, 5), "line 1 at byte 16: the type is 5: an append writes the manifest itself"),
        (changed(32, 0), "line 2 at byte 32: the type 0x00 is not allowed: no segment has it"),
        (changed(32, 0x0E), "line 2 at byte 32: the type 0x0e is not allowed: 0x0e to 0xef are reserved"),
        (changed(33, 1), "line 2 at byte 33: must be zero"),
        (changed(35, 0x80), "line 2 at byte 34: the flags 0x8008 are not allowed (only 0x03c8 and parts of it)"),
        (changed(20, 49), "line 1 at byte 20: the offset is 49, and the body begins at byte 48: there are no gaps"),
        (changed(41, 9), "line 2 at byte 40: the length is 2317, and only 13 bytes are left"),
        (changed(47, 1), "line 2 at byte 47: must be zero"),
        ([&good[..], &[1, 2]].concat(), "byte 189: 2 bytes lie behind the last body"),
    ];
    let place = Place::new("why-10", &sample("clean.rvf"), b"");
    for (batch, wanted) in cases {
        put(&place.batch, &batch);
        let lines = why(&place.append(&[]), &place.batch, 10);
        assert_eq!(lines, [wanted, "next: the batch form stands in include/rvf.h, at rvf_append"]);
    }
    // A body that is no vectors: which, and where.
    let mut broken = small_vectors(&[1], 3);
    broken[64] ^= 1;
    let batch = rvf::batch(&[body(7, b"note"), body(rvf::VEC, &small_vectors(&[1], 3)), body(rvf::VEC, &broken)]);
    put(&place.batch, &batch);
    let lines = why(&place.append(&[]), &place.batch, 7);
    assert!(lines[0].starts_with("body 3 at byte 196: a block's checksum differs"), "{lines:?}");
    assert!(lines[1].starts_with("next: make the body again"), "{lines:?}");
}

/// The tool's judgement of batches is the library's.
#[test]
fn the_form_is_judged_as_the_library_does() {
    let mut random = Random::new();
    let good = rvf::batch(&[body(7, b"note"), Body { kind: 0xF3, flags: 8, bytes: b"" }, body(9, &[1; 70])]);
    let (mut wrong, mut right) = (0, 0);
    for _ in 0..20_000 {
        let mut batch = good.clone();
        match random.below(8) {
            0 => batch.truncate(random.below(batch.len() + 1)),
            1 => batch.extend(vec![0; random.below(3)]),
            _ => {
                let at = random.below(70);
                batch[at] =
                    if random.below(2) == 0 { batch[at] ^ 1 << random.below(8) } else { random.below(256) as u8 };
            }
        }
        let mut buffer = vec![0; 6_000];
        let library = rvf::append(&mut buffer, 0, &batch, &[], 1);
        let judged = bodies(&batch);
        assert_eq!(judged.is_err(), library == Err(Refusal::Batch), "{:?}", judged.err());
        wrong += usize::from(judged.is_err());
        right += usize::from(judged.is_ok());
    }
    assert!(wrong > 5_000 && right > 1_000, "{wrong} wrong, {right} right");
}
