//! Writes the sample files of the repository into a folder:
//!
//!     cargo run --offline --manifest-path bindings/rust/Cargo.toml --example samples -- samples
//!
//! They are made by the library alone; damage is what a drop-out or a bad disk would do.

use rvf::{Body, Dtype, Encoding, Refusal, Vectors};
use std::path::Path;

/// A payload of positions x, y, z as f32, one for each id.
fn positions(ids: &[u64], at: f32) -> Result<Vec<u8>, Refusal> {
    let value = |axis: usize, place: usize| at + 100.0 * axis as f32 + 0.25 * place as f32;
    let columns: Vec<u8> = (0..3).flat_map(|axis| (0..ids.len()).flat_map(move |place| value(axis, place).to_le_bytes())).collect();
    let encoding = Encoding::Delta { interval: 0 };
    rvf::vectors(&Vectors { ids, columns: &columns, dim: 3, dtype: Dtype::F32, tier: 0, encoding })
}

/// A file with a batch appended.
fn append(file: &[u8], bodies: &[Body], retire: &[u64], time: u64) -> Result<Vec<u8>, Refusal> {
    let mut buffer = file.to_vec();
    buffer.resize(rvf::FILE_LIMIT, 0);
    let end = rvf::append(&mut buffer, file.len(), &rvf::batch(bodies), retire, time)?.end;
    buffer.truncate(end as usize);
    Ok(buffer)
}

fn vec(bytes: &[u8]) -> Body<'_> {
    Body { kind: rvf::VEC, flags: 0, bytes }
}

fn note(bytes: &[u8]) -> Body<'_> {
    Body { kind: 7, flags: 0, bytes }
}

/// The example of the rules for the lister: one note of no bytes.
fn worked() -> Result<Vec<u8>, Refusal> {
    append(&[], &[note(b"")], &[], 500)
}

/// Three batches: two objects, then both of them anew with a note, then a third object
/// while the first batch's segment (id 0) is retired.
fn clean() -> Result<Vec<u8>, Refusal> {
    let file = append(&[], &[vec(&positions(&[7, 21], 1.0)?)], &[], 1_000)?;
    let file = append(&file, &[vec(&positions(&[7, 21], 2.0)?), note(b"second contact")], &[], 2_000)?;
    append(&file, &[vec(&positions(&[30], 3.0)?)], &[0], 3_000)
}

/// The clean file, and a fourth batch that a drop-out cut in the middle of its body.
fn torn(clean: &[u8]) -> Result<Vec<u8>, Refusal> {
    let mut file = append(clean, &[vec(&positions(&[7, 21, 30, 31], 4.0)?)], &[], 4_000)?;
    file.truncate(clean.len() + 150);
    Ok(file)
}

/// The clean file with one bit of the newest vectors changed.
fn damaged(clean: &[u8]) -> Result<Vec<u8>, Refusal> {
    let newest = rvf::entries(clean)?.into_iter().rfind(|entry| entry.kind == rvf::VEC);
    let offset = newest.map_or(0, |entry| entry.offset) as usize;
    let mut file = clean.to_vec();
    // The segment's header takes 64 bytes, the payload's directory 64 more; then the columns.
    file[offset + 64 + 64] ^= 1;
    Ok(file)
}

/// The clean file without its retired segment and its older manifests.
fn compacted(clean: &[u8]) -> Result<Vec<u8>, Refusal> {
    let mut buffer = vec![0; clean.len()];
    let end = rvf::compact(clean, &mut buffer)?.end;
    buffer.truncate(end as usize);
    Ok(buffer)
}

/// A file whose one body is the whole clean file, its manifests included.
fn nested(clean: &[u8]) -> Result<Vec<u8>, Refusal> {
    append(&[], &[note(clean)], &[], 5_000)
}

/// One batch of u8 vectors of dim 1 with the ids of the rules' example, a restart after every two.
fn restarts() -> Result<Vec<u8>, Refusal> {
    let encoding = Encoding::Delta { interval: 2 };
    let (ids, columns) = (&[100, 105, 108, 120, 200], &[1, 2, 3, 4, 5]);
    let payload = rvf::vectors(&Vectors { ids, columns, dim: 1, dtype: Dtype::U8, tier: 0, encoding })?;
    append(&[], &[vec(&payload)], &[], 6_000)
}

/// One batch: a note, then vectors of each dtype, the ids 1 and 2 as f32, 3 as i8, 4 as u8.
fn kinds() -> Result<Vec<u8>, Refusal> {
    let payload = |ids: &[u64], columns: &[u8], dim, dtype| {
        rvf::vectors(&Vectors { ids, columns, dim, dtype, tier: 0, encoding: Encoding::Delta { interval: 0 } })
    };
    let floats: Vec<u8> = [2.5f32, -0.75, 0.0, 1e9].iter().flat_map(|value| value.to_le_bytes()).collect();
    let floats = payload(&[1, 2], &floats, 2, Dtype::F32)?;
    let signed = payload(&[3], &[(-7i8).to_le_bytes(), 127i8.to_le_bytes()].concat(), 2, Dtype::I8)?;
    let unsigned = payload(&[4], &[200, 0], 2, Dtype::U8)?;
    append(&[], &[note(b"one of each kind\n"), vec(&floats), vec(&signed), vec(&unsigned)], &[], 7_000)
}

/// A file as another writer leaves it: positions, a metadata index (type 0x0D) and a segment of a
/// type that is reserved here (0x20); then positions appended behind it.
fn partner() -> Result<Vec<u8>, Refusal> {
    let index = Body { kind: 0x0D, flags: 0, bytes: b"station north: 7, 21\n" };
    let mut file = append(&[], &[vec(&positions(&[7, 21], 1.0)?), index, note(&[0xC0; 96])], &[], 8_000)?;
    // No batch brings a reserved type: it is written over the third segment's, in its header and
    // in its entry, and the manifest gets the hash of what it holds then.
    let (third, manifest) = (rvf::entries(&file)?[2], rvf::open(&file)?.offset as usize);
    let payload = manifest + 64..file.len();
    file[third.offset as usize + 5] = 0x20;
    file[payload.start + 8 + 48 * 2 + 40] = 0x20;
    let sum = rvf::crc32c(&file[payload]);
    file[manifest + 40..manifest + 44].copy_from_slice(&sum.to_le_bytes());
    append(&file, &[vec(&positions(&[7], 2.0)?)], &[], 9_000)
}

/// The clean file with one bit flipped: in the padding behind the note, in the header of the
/// second batch's vectors, in the newest manifest's entry for the first segment.
fn flipped(clean: &[u8], at: usize, bit: u8) -> Vec<u8> {
    let mut file = clean.to_vec();
    file[at] ^= 1 << bit;
    file
}

fn main() -> Result<(), Box<dyn std::error::Error>> {
    let folder = std::env::args().nth(1).ok_or("name the folder to write to")?;
    let clean = clean()?;
    let files = [
        ("worked.rvf", worked()?),
        ("torn.rvf", torn(&clean)?),
        ("damaged.rvf", damaged(&clean)?),
        ("compacted.rvf", compacted(&clean)?),
        ("nested.rvf", nested(&clean)?),
        ("restarts.rvf", restarts()?),
        ("kinds.rvf", kinds()?),
        ("partner.rvf", partner()?),
        ("flipped_padding.rvf", flipped(&clean, 4_692, 2)),
        ("flipped_header.rvf", flipped(&clean, 4_423, 7)),
        ("flipped_manifest.rvf", flipped(&clean, 9_344 + 64 + 8 + 41, 0)),
        ("clean.rvf", clean),
    ];
    for (name, bytes) in files {
        std::fs::write(Path::new(&folder).join(name), bytes)?;
    }
    Ok(())
}
