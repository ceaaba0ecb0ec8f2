//! The lines for compaction: a file of 16 MiB with every second segment retired, where checksums
//! and copies are the work; and one of 1,000 entries of which every second is a manifest, where
//! the directory is.

use crate::{line, Unit};
use rvf_harness::calls::{Calls, Reference};
use rvf_harness::ffi::Library;
use rvf_harness::gen::files::Builder;
use rvf_harness::gen::Rng;
use rvf_harness::reference::{limits, manifest};
use std::hint::black_box;

/// A valid file of about 16 MiB: 1,000 bodies of noise, every second one retired.
fn half_retired() -> Vec<u8> {
    let mut file = Builder::new(0, 0);
    let spare = limits::FILE - 1_001 * 64 - manifest::payload_length(1_000);
    let body = Rng::new(10).bytes(spare / 1_000 / 64 * 64);
    for index in 0..1_000 {
        file.body(7, 0, 1, &body);
        file.links[index].1 = (index % 2) as u8;
    }
    file.manifest(0, 1, &[]);
    file.bytes
}

/// 500 batches of one small body each, so every second one of 1,000 entries is a manifest.
fn half_manifests() -> Vec<u8> {
    let mut file = Builder::new(0, 0);
    let body = Rng::new(11).bytes(200);
    for batch in 0..500 {
        file.body(7, 0, batch, &body);
        file.manifest(0, batch, &[]);
    }
    file.manifest(0, 500, &[]);
    assert_eq!(file.links.len(), 1_001);
    file.bytes
}

#[inline(never)]
fn their_compact(file: &[u8], buffer: &mut [u8], out: &mut [u64; 3]) -> u32 {
    Reference.compact(file, buffer, out)
}

fn compact_line(name: &str, file: &[u8], count: u64, unit: impl Fn(usize) -> Unit) {
    let (mut buffer_a, mut buffer_b, mut out) = (vec![0; file.len()], vec![0; file.len()], [0; 3]);
    assert_eq!((Reference.compact(file, &mut buffer_b, &mut out), out[2]), (0, count));
    line(
        name,
        unit(out[0] as usize),
        || {
            let mut out = [0; 3];
            assert_eq!(Library.compact(black_box(file), black_box(&mut buffer_a), &mut out), 0);
            black_box(out);
        },
        || {
            let mut out = [0; 3];
            assert_eq!(their_compact(black_box(file), black_box(&mut buffer_b), &mut out), 0);
            black_box(out);
        },
    );
    assert!(buffer_a == buffer_b);
}

pub fn lines() {
    // The unit's bytes are those of the fresh file.
    compact_line("compact_16MiB_half_retired", &half_retired(), 500, Unit::Bytes);
    compact_line("compact_500_of_1000_manifests", &half_manifests(), 500, |_| Unit::Ns(1));
}
