//! The lines for opening and, with the feature `reading`, for vectors by id.

#[cfg(feature = "reading")]
use crate::line;
use crate::Unit;
use rvf_harness::calls::{Calls, Reference};
use rvf_harness::ffi::Library;
use rvf_harness::gen::files::{candidates, Builder};
use rvf_harness::gen::Rng;
use rvf_harness::reference::{limits, manifest};
use std::hint::black_box;

/// A valid file of about `length` bytes whose manifest has 1,000 entries: a first
/// manifest among bodies of noise, as long as the length asks for.
pub fn thousand(length: usize) -> Vec<u8> {
    let mut rng = Rng::new(5);
    let mut file = Builder::new(0, 0);
    let spare = length - 1_000 * 64 - 2 * 64 - manifest::payload_length(1) - manifest::payload_length(1_000);
    let body = rng.bytes(spare / 999 / 64 * 64);
    for index in 0..999 {
        file.body(7, 0, 1, &body);
        if index == 0 {
            file.manifest(0, 1, &[]);
        }
    }
    file.manifest(0, 1, &[]);
    assert_eq!(file.links.len(), 1_001);
    file.bytes
}

#[inline(never)]
fn their_open(file: &[u8], out: &mut [u64; 5]) -> u32 {
    Reference.open(file, out)
}

/// Opening; in nanoseconds a call, or a MiB of the file where `mib` is above 1.
fn open_line(name: &str, file: &[u8], number: u32, mib: usize) {
    crate::line(
        name,
        Unit::Ns(mib),
        || {
            let mut out = [0; 5];
            assert_eq!(Library.open(black_box(file), &mut out), number);
            black_box(out);
        },
        || {
            let mut out = [0; 5];
            assert_eq!(their_open(black_box(file), &mut out), number);
            black_box(out);
        },
    );
}

/// Opening against the reference's walk from byte 0, which looks at no boundary that
/// is no link: what the search from the end costs on top of it.
fn walk_line(name: &str, file: &[u8]) {
    crate::line(
        name,
        Unit::Ns(1),
        || {
            let mut out = [0; 5];
            assert_eq!(Library.open(black_box(file), &mut out), 0);
            black_box(out);
        },
        || assert!(black_box(manifest::open_by_walk(black_box(file))).is_ok()),
    );
}

/// An entry of the directory, the opening included.
fn entry_line(name: &str, file: &[u8], index: u64) {
    let call = |calls: &dyn Calls| {
        let mut out = [0; 8];
        assert_eq!(calls.entry(black_box(file), index, &mut out), 0);
        black_box(out);
    };
    crate::line(name, Unit::Ns(1), || call(&Library), || call(&Reference));
}

/// The place of a segment's payload, the opening and the payload's hash included.
#[cfg(feature = "reading")]
fn payload_line(name: &str, file: &[u8], id: u64) {
    let call = |calls: &dyn Calls| {
        let mut out = [0; 2];
        assert_eq!(calls.payload(black_box(file), id, &mut out), 0);
        black_box(out);
    };
    line(name, Unit::Ns(1), || call(&Library), || call(&Reference));
}

/// The lister's text of a file within its limit, with as many entries as fit.
#[cfg(feature = "list")]
fn list_line() {
    let mut file = Builder::new(0, 0);
    for _ in 0..540 {
        file.body(7, 0, 1, b"");
    }
    file.manifest(0, 1, &[]);
    assert!(file.bytes.len() <= limits::LISTED);
    let call = |calls: &dyn Calls| {
        let (mut buffer, mut out) = ([0; 32_768], [0]);
        assert_eq!(calls.list(black_box(&file.bytes), &mut buffer, &mut out), 0);
        black_box((buffer, out));
    };
    line("list_540_entries", Unit::Ns(1), || call(&Library), || call(&Reference));
}

fn opening() {
    let clean = thousand(limits::FILE);
    open_line("open_16MiB_clean", &clean, 0, 1);
    walk_line("open_16MiB_clean_against_walk", &clean);
    let mut torn = thousand(limits::FILE - (1 << 20));
    let noise = Rng::new(6).bytes(limits::FILE - torn.len());
    torn.extend_from_slice(&noise);
    open_line("open_16MiB_torn_1MiB", &torn, 0, 1);
    entry_line("entry_16MiB_of_1000", &clean, 500);
    #[cfg(feature = "reading")]
    payload_line("payload_16MiB_of_1000", &clean, 500);
    walk_line("open_16MiB_torn_1MiB_against_walk", &torn);

    // Candidates behind a small file that has 1,000 entries. Linear work shows as the
    // same time a MiB for both lengths.
    let small = thousand(1 << 20);
    for (name, count, formed) in [("every", 0, false), ("formed_0", 0, true), ("formed_1000", 1_000, true)] {
        for mib in [4, 16] {
            let mut file = small.clone();
            let boundaries = ((mib << 20) - file.len()) / 64;
            file.extend(candidates(file.len(), boundaries, count, formed));
            open_line(&format!("open_hostile_{name}_{mib}MiB_per_MiB"), &file, 0, mib);
        }
    }
    // No manifest at all: the whole file is searched.
    let none = candidates(0, limits::FILE / 64, 0, false);
    open_line("open_hostile_none_16MiB_per_MiB", &none, 2, 16);
}

/// Vectors by id: 64 segments of 64 KiB with 255 vectors of 64 f32 each, found in the
/// newest and in the oldest; and one of 4,096 vectors of 64 f32.
#[cfg(feature = "reading")]
fn reading() {
    use rvf_harness::calls::VecInput;
    let mut rng = Rng::new(7);
    let mut payload = |vectors: usize, first: u64| {
        let input = VecInput {
            ids: rng.rising(vectors, first, 4),
            columns: rng.bytes(vectors * 256),
            dim: 64,
            dtype: 0,
            tier: 0,
            encoding: 1,
            interval: 0,
        };
        let mut buffer = vec![0; vectors * 280 + 256];
        let mut out = [0];
        assert_eq!(Reference.vec_write(&mut buffer, &input, &mut out), 0);
        buffer.truncate(out[0] as usize);
        (buffer, input.ids[vectors / 2])
    };
    let mut file = Builder::new(0, 0);
    let mut wanted = Vec::new();
    for segment in 0..64 {
        let (bytes, id) = payload(255, 100_000 * (segment + 1));
        file.body(1, 0, 1, &bytes);
        wanted.push(id);
    }
    file.manifest(0, 1, &[]);
    vector_line("vector_64_segments_newest", &file.bytes, wanted[63], 1);
    vector_line("vector_64_segments_oldest", &file.bytes, wanted[0], 1);

    let mut file = Builder::new(0, 0);
    let (bytes, id) = payload(4_096, 77);
    file.body(1, 0, 1, &bytes);
    file.manifest(0, 1, &[]);
    vector_line("vector_64_f32_of_4096", &file.bytes, id, 1);
    line(
        "component_64_f32_of_4096",
        Unit::Ns(1),
        || {
            let mut out = [0; 2];
            assert_eq!(Library.component(black_box(&file.bytes), id, 63, &mut out), 0);
            black_box(out);
        },
        || {
            let mut out = [0; 2];
            assert_eq!(Reference.component(black_box(&file.bytes), id, 63, &mut out), 0);
            black_box(out);
        },
    );
}

#[cfg(feature = "reading")]
#[inline(never)]
fn their_vector(file: &[u8], id: u64, buffer: &mut [u8], out: &mut [u64; 3]) -> u32 {
    Reference.vector(file, id, buffer, out)
}

#[cfg(feature = "reading")]
fn vector_line(name: &str, file: &[u8], id: u64, operations: usize) {
    let (mut buffer_a, mut buffer_b) = ([0; 256], [0; 256]);
    line(
        name,
        Unit::Ns(operations),
        || {
            let mut out = [0; 3];
            assert_eq!(Library.vector(black_box(file), id, black_box(&mut buffer_a), &mut out), 0);
            black_box(out);
        },
        || {
            let mut out = [0; 3];
            assert_eq!(their_vector(black_box(file), id, black_box(&mut buffer_b), &mut out), 0);
            black_box(out);
        },
    );
}

pub fn lines() {
    opening();
    #[cfg(feature = "reading")]
    reading();
    #[cfg(feature = "list")]
    list_line();
}
