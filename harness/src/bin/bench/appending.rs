//! The lines for appending: vectors of 64 KiB to a file of 1 MiB of them, and a batch of 1 MiB
//! to files of 1, 4 and 15 MiB whose manifests have 1,000 entries.

use crate::files::thousand;
use crate::vectors::payload;
use crate::{line, Unit};
use rvf_harness::calls::{Calls, Reference};
use rvf_harness::ffi::Library;
use rvf_harness::gen::{batch_of, Rng};
use rvf_harness::reference::limits;
use std::hint::black_box;

#[inline(never)]
fn their_append(buffer: &mut [u8], n: u64, batch: &[u8], out: &mut [u64; 3]) -> u32 {
    Reference.append(buffer, n, batch, &[], 1, out)
}

/// A batch appended to the file that is the first n bytes of a buffer: every call appends the same.
fn append_line(name: &str, unit: Unit, buffer: &[u8], n: u64, batch: &[u8]) {
    let (mut buffer_a, mut buffer_b) = (buffer.to_vec(), buffer.to_vec());
    line(
        name,
        unit,
        || {
            let mut out = [0; 3];
            assert_eq!(Library.append(black_box(&mut buffer_a), n, black_box(batch), &[], 1, &mut out), 0);
            black_box(out);
        },
        || {
            let mut out = [0; 3];
            assert_eq!(their_append(black_box(&mut buffer_b), n, black_box(batch), &mut out), 0);
            black_box(out);
        },
    );
}

/// A pass of vectors, 64 KiB, appended to a file of sixteen others.
fn vectors() {
    let mut rng = Rng::new(19);
    let batch_from = |rng: &mut Rng, first_id| batch_of(&[(1, 0, &payload(rng, 248, first_id))]);
    let (mut buffer, mut n, mut out) = (vec![0; 2 << 20], 0, [0; 3]);
    for pass in 0..16 {
        let batch = batch_from(&mut rng, 10_000 * pass);
        assert_eq!(Reference.append(&mut buffer, n, &batch, &[], 1, &mut out), 0);
        n = out[0];
    }
    let batch = batch_from(&mut rng, 10_000 * 16);
    append_line("append_64KiB_of_vectors", Unit::Bytes(batch.len()), &buffer, n, &batch);
}

pub fn lines() {
    vectors();
    let mut rng = Rng::new(9);
    // One body, and the manifest behind it: together nearly the longest batch.
    let body = rng.bytes(limits::BATCH_MAX - 32);
    let batch = batch_of(&[(7, 0, &body)]);
    let empty = batch_of(&[]);
    for mib in [1, 4, 15] {
        // The largest file leaves room for the batch and the new manifest.
        let length = if mib == 15 { (15 << 20) - 65_536 } else { mib << 20 };
        let mut buffer = thousand(length);
        let n = buffer.len() as u64;
        buffer.resize(limits::FILE, 0);
        append_line(&format!("append_1MiB_to_{mib}MiB"), Unit::Bytes(batch.len()), &buffer, n, &batch);
        // An empty batch: opening and the new manifest alone.
        append_line(&format!("append_empty_to_{mib}MiB"), Unit::Ns(1), &buffer, n, &empty);
    }
}
