//! The lines for VEC_SEG payloads: the check of a 1 MiB payload, the writer on 4,096
//! vectors of 64 f32, and one of these vectors by its id.

use crate::{line, Unit};
use rvf_harness::calls::{Calls, Reference, VecInput};
use rvf_harness::ffi::Library;
use rvf_harness::gen::Rng;
use std::hint::black_box;

/// Input for one block of 64 f32 a vector.
pub fn floats(rng: &mut Rng, vectors: usize, first_id: u64) -> VecInput {
    VecInput {
        ids: rng.rising(vectors, first_id, 8),
        columns: rng.bytes(vectors * 64 * 4),
        dim: 64,
        dtype: 0,
        tier: 0,
        encoding: 1,
        interval: 0,
    }
}

/// A one-block payload of such vectors, by the reference's writer.
pub fn payload(rng: &mut Rng, vectors: usize, first_id: u64) -> Vec<u8> {
    let input = floats(rng, vectors, first_id);
    let mut buffer = vec![0; input.columns.len() + 16 * vectors + 256];
    let mut out = [0];
    assert_eq!(Reference.vec_write(&mut buffer, &input, &mut out), 0);
    buffer.truncate(out[0] as usize);
    buffer
}

#[inline(never)]
fn their_check(payload: &[u8]) -> u32 {
    Reference.vec_check(payload)
}

#[inline(never)]
fn their_write(buffer: &mut [u8], input: &VecInput, out: &mut [u64; 1]) -> u32 {
    Reference.vec_write(buffer, input, out)
}

#[inline(never)]
fn their_read(payload: &[u8], id: u64, buffer: &mut [u8], out: &mut [u64; 3]) -> u32 {
    Reference.vec_read(payload, id, buffer, out)
}

/// One vector by its id, the check of the payload included on both sides.
fn read_line(name: &str, payload: &[u8], id: u64) {
    let (mut buffer_a, mut buffer_b) = ([0; 256], [0; 256]);
    line(
        name,
        Unit::Ns(1),
        || {
            let mut out = [0; 3];
            assert_eq!(Library.vec_read(black_box(payload), black_box(id), &mut buffer_a, &mut out), 0);
            black_box((out, &buffer_a));
        },
        || {
            let mut out = [0; 3];
            assert_eq!(their_read(black_box(payload), black_box(id), &mut buffer_b, &mut out), 0);
            black_box((out, &buffer_b));
        },
    );
}

pub fn lines() {
    let mut rng = Rng::new(4);
    // 4,096 vectors of 64 f32 are 1 MiB of columns.
    let payload = payload(&mut rng, 4_096, 1_000);
    line(
        "vec_check_1MiB",
        Unit::Bytes(payload.len()),
        || assert_eq!(black_box(Library.vec_check(black_box(&payload))), 0),
        || assert_eq!(black_box(their_check(black_box(&payload))), 0),
    );
    // Many small blocks: the checks around the checksum show.
    let blocks = rvf_harness::gen::payloads::many_blocks(&mut rng, 64, 16);
    line(
        "vec_check_64_blocks_of_16",
        Unit::Bytes(blocks.len()),
        || assert_eq!(black_box(Library.vec_check(black_box(&blocks))), 0),
        || assert_eq!(black_box(their_check(black_box(&blocks))), 0),
    );
    let input = floats(&mut rng, 4_096, 1_000);
    let (mut buffer_a, mut buffer_b) = (vec![0; payload.len() + 4_096], vec![0; payload.len() + 4_096]);
    line(
        "vec_write_4096x64_f32",
        Unit::Bytes(payload.len()),
        || {
            let mut out = [0];
            assert_eq!(Library.vec_write(black_box(&mut buffer_a), black_box(&input), &mut out), 0);
            black_box(out);
        },
        || {
            let mut out = [0];
            assert_eq!(their_write(black_box(&mut buffer_b), black_box(&input), &mut out), 0);
            black_box(out);
        },
    );
    let mut out = [0];
    assert_eq!(Reference.vec_write(&mut buffer_a, &input, &mut out), 0);
    let written = &buffer_a[..out[0] as usize];
    read_line("vec_read_64_f32_of_4096", written, input.ids[2_000]);
    // A small payload, where the search and the gathering show beside the checksum.
    let small = self::payload(&mut rng, 16, 1_000);
    let ids = (1_000..).find(|&id| Reference.vec_read(&small, id, &mut [0; 256], &mut [0; 3]) == 0);
    read_line("vec_read_64_f32_of_16", &small, ids.expect("an id of the payload"));
}
