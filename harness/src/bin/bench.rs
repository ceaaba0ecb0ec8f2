//! The benchmark: prints `name ours textbook best ratio ratio` a line. Ours is the linked
//! library; the two others are the reference in plain Rust, with its checksums by sixteen
//! tables as a textbook has them, and by the best way known here. The name ends in the unit.
//! The ratios are of speeds, ours to each of them, so 1.00 is equal and above is faster.
//! Nothing here is a test.

#[cfg(feature = "append")]
#[path = "bench/appending.rs"]
mod appending;
#[cfg(feature = "compact")]
#[path = "bench/compacting.rs"]
mod compacting;
#[cfg(feature = "open")]
#[path = "bench/files.rs"]
mod files;
#[cfg(feature = "vec")]
#[path = "bench/vectors.rs"]
mod vectors;

use rvf_harness::calls::Calls;
use rvf_harness::ffi::Library;
use rvf_harness::gen::{maps, Rng};
use rvf_harness::reference::crc::take_best;
use std::hint::black_box;
use std::time::{Duration, Instant};

/// Rounds of each side; the best one counts. Many short ones rather than few long
/// ones: on a shared machine some of them then fall into a quiet moment.
const ROUNDS: usize = 64;
/// About how long a round takes.
const ROUND: Duration = Duration::from_millis(3);

/// The unit of a line, with what one call of the measured closure amounts to.
#[derive(Clone, Copy)]
pub enum Unit {
    /// Megabytes (10^6) a second; the call goes through this many bytes.
    Bytes(usize),
    /// Nanoseconds an operation; the call makes this many.
    Ns(usize),
}

/// Seconds a call takes, over that many calls.
fn seconds(call: &mut impl FnMut(), calls: usize) -> f64 {
    let start = Instant::now();
    for _ in 0..calls {
        call();
    }
    start.elapsed().as_secs_f64() / calls as f64
}

/// A line whose two peers are the reference, with its checksums by the textbook and by the best way.
pub fn line(name: &str, unit: Unit, ours: impl FnMut(), theirs: impl FnMut()) {
    let theirs = std::cell::RefCell::new(theirs);
    peers(
        name,
        unit,
        ours,
        || theirs.borrow_mut()(),
        || theirs.borrow_mut()(),
    );
}

/// Measures all in turn, round by round, so that a busy machine hurts them alike, and prints
/// the line.
pub fn peers(name: &str, unit: Unit, mut ours: impl FnMut(), mut textbook: impl FnMut(), mut best: impl FnMut()) {
    // As many calls a round as fill it, found by doubling: the first calls are cold.
    let mut calls = 1;
    while calls < 1 << 24 {
        let slower = seconds(&mut ours, calls).max(seconds(&mut textbook, calls));
        if slower * calls as f64 >= ROUND.as_secs_f64() / 2.0 {
            break;
        }
        calls *= 2;
    }
    let [mut best_ours, mut best_textbook, mut best_best] = [f64::MAX; 3];
    for _ in 0..ROUNDS {
        best_ours = best_ours.min(seconds(&mut ours, calls));
        best_textbook = best_textbook.min(seconds(&mut textbook, calls));
        take_best(true);
        best_best = best_best.min(seconds(&mut best, calls));
        take_best(false);
    }
    let shown = |seconds: f64| match unit {
        Unit::Bytes(bytes) => bytes as f64 / seconds / 1e6,
        Unit::Ns(operations) => seconds * 1e9 / operations as f64,
    };
    let unit = match unit {
        Unit::Bytes(_) => "MB/s",
        Unit::Ns(_) => "ns",
    };
    println!(
        "{name}_{unit} {:.1} {:.1} {:.1} {:.2} {:.2}",
        shown(best_ours),
        shown(best_textbook),
        shown(best_best),
        best_textbook / best_ours,
        best_best / best_ours
    );
}

/// The reference behind calls that are not inlined into the loops here, since those
/// of a linked library are not either.
pub mod theirs {
    use rvf_harness::calls::{Calls, Reference};

    /// No wrappers: these functions are not inlined across crates as they are.
    pub use rvf_harness::reference::crc::crc32c_sliced;
    pub use rvf_harness::reference::sparse::crc32c as crc32c_sparse;

    #[inline(never)]
    pub fn varint_read(data: &[u8], out: &mut [u64; 2]) -> u32 {
        Reference.varint_read(data, out)
    }

    #[inline(never)]
    pub fn varint_write(buffer: &mut [u8], value: u64, out: &mut [u64; 1]) -> u32 {
        Reference.varint_write(buffer, value, out)
    }

    #[inline(never)]
    pub fn idmap_read(data: &[u8], count: u64, ids: &mut [u64], out: &mut [u64; 1]) -> u32 {
        Reference.idmap_read(data, count, ids, out)
    }

    #[inline(never)]
    pub fn idmap_write(buffer: &mut [u8], ids: &[u64], encoding: u64, interval: u64, out: &mut [u64; 1]) -> u32 {
        Reference.idmap_write(buffer, ids, encoding, interval, out)
    }
}

fn checksums() {
    let data = Rng::new(1).bytes(1 << 20);
    for (name, length) in [("1MiB", 1 << 20), ("64KiB", 1 << 16), ("4KiB", 4_096), ("512B", 512), ("64B", 64), ("16B", 16)] {
        let part = &data[..length];
        peers(
            &format!("crc32c_{name}"),
            Unit::Bytes(length),
            || {
                black_box(Library.crc32c(black_box(part)));
            },
            || {
                black_box(theirs::crc32c_sliced(black_box(part)));
            },
            || {
                black_box(theirs::crc32c_sparse(black_box(part)));
            },
        );
    }
}

/// Varints one after the other: of mixed lengths, where a wrong guess of the next
/// length costs most, and of one byte each, where the work itself shows.
fn varints() {
    let mut rng = Rng::new(2);
    let bits = [5, 6, 7, 7, 7, 10, 13, 20, 40, 64];
    let mixed: Vec<u64> = (0..4_096).map(|_| rng.next() >> (64 - rng.pick(&bits))).collect();
    varints_of("", &mixed);
    let short: Vec<u64> = (0..4_096).map(|_| rng.next() >> 57).collect();
    varints_of("_of_one_byte", &short);
}

fn varints_of(name: &str, values: &[u64]) {
    let bytes: Vec<u8> = values.iter().flat_map(|&value| maps::varint_bytes(value)).collect();

    #[inline(always)]
    fn read_all(bytes: &[u8], read: impl Fn(&[u8], &mut [u64; 2]) -> u32) -> u64 {
        let (mut at, mut sum, mut out) = (0, 0u64, [0; 2]);
        while at < bytes.len() {
            assert_eq!(read(&bytes[at..], &mut out), 0);
            sum = sum.wrapping_add(out[0]);
            at += out[1] as usize;
        }
        sum
    }
    line(
        &format!("varint_read{name}"),
        Unit::Ns(values.len()),
        || {
            black_box(read_all(black_box(&bytes), |data, out| Library.varint_read(data, out)));
        },
        || {
            black_box(read_all(black_box(&bytes), theirs::varint_read));
        },
    );

    #[inline(always)]
    fn write_all(buffer: &mut [u8], values: &[u64], write: impl Fn(&mut [u8], u64, &mut [u64; 1]) -> u32) {
        let (mut at, mut out) = (0, [0; 1]);
        for &value in values {
            assert_eq!(write(&mut buffer[at..], value, &mut out), 0);
            at += out[0] as usize;
        }
    }
    let (mut buffer_a, mut buffer_b) = (vec![0; bytes.len()], vec![0; bytes.len()]);
    line(
        &format!("varint_write{name}"),
        Unit::Ns(values.len()),
        || {
            write_all(black_box(&mut buffer_a), black_box(values), |buffer, value, out| {
                Library.varint_write(buffer, value, out)
            })
        },
        || write_all(black_box(&mut buffer_b), black_box(values), theirs::varint_write),
    );
}

/// Maps of 4,096 ids with the default interval: differences of one and two bytes in
/// no order, or all of one byte ("dense"), and raw ids.
fn id_maps() {
    let mixed = Rng::new(3).rising(4_096, 1_000_000, 8);
    let dense = Rng::new(3).rising(4_096, 1_000_000, 6);
    for (name, ids, encoding) in [("delta", &mixed, 1), ("delta_dense", &dense, 1), ("raw", &mixed, 0)] {
        read_map(&format!("idmap_read_4096_{name}"), &maps::valid(ids, encoding, 0));
    }
    for (name, ids) in [("delta", &mixed), ("delta_dense", &dense)] {
        write_map(&format!("idmap_write_4096_{name}"), ids);
    }
}

fn read_map(name: &str, map: &[u8]) {
    let (mut room_a, mut room_b) = (vec![0; 4_096], vec![0; 4_096]);
    line(
        name,
        Unit::Ns(1),
        || {
            let mut out = [0];
            assert_eq!(Library.idmap_read(black_box(map), 4_096, black_box(&mut room_a), &mut out), 0);
            black_box(out);
        },
        || {
            let mut out = [0];
            assert_eq!(theirs::idmap_read(black_box(map), 4_096, black_box(&mut room_b), &mut out), 0);
            black_box(out);
        },
    );
}

fn write_map(name: &str, ids: &[u64]) {
    let length = maps::valid(ids, 1, 0).len();
    let (mut buffer_a, mut buffer_b) = (vec![0; length], vec![0; length]);
    line(
        name,
        Unit::Ns(1),
        || {
            let mut out = [0];
            assert_eq!(Library.idmap_write(black_box(&mut buffer_a), black_box(ids), 1, 0, &mut out), 0);
            black_box(out);
        },
        || {
            let mut out = [0];
            assert_eq!(theirs::idmap_write(black_box(&mut buffer_b), black_box(ids), 1, 0, &mut out), 0);
            black_box(out);
        },
    );
}

fn main() {
    println!("name ours textbook best ratio ratio");
    checksums();
    varints();
    id_maps();
    #[cfg(feature = "vec")]
    vectors::lines();
    #[cfg(feature = "open")]
    files::lines();
    #[cfg(feature = "append")]
    appending::lines();
    #[cfg(feature = "compact")]
    compacting::lines();
}
