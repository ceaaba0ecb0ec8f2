//! The store for Rust: a safe wrapper over the static library, without dependencies.
//!
//! A file is a slice of bytes; what a call cannot answer it refuses, and a refusal has
//! changed nothing. What each call answers, for all input, is proved of the library
//! (`docs/CLAIMS.md`); the few lines here hand slices over and give the numbers names.

mod lost;
mod maps;
mod payloads;
mod reading;
mod refusal;
pub mod sys;
mod writing;

pub use lost::{lost_behind, Lost, LostManifest};
pub use maps::{read_ids, read_varint, write_ids, write_varint, IDS_LIMIT};
pub use payloads::{check_vectors, vector_of, vector_of_into};
pub use reading::{
    component, entries, entry, list, open, payload, vector, vector_into, Component, Dtype, Entry, Manifest, OpenRefused,
    Shape, Vector,
};
pub use refusal::Refusal;
pub use writing::{append, batch, compact, vectors, Appended, Body, Compacted, Encoding, Vectors};

/// The longest file, in bytes.
pub const FILE_LIMIT: usize = 16_777_216;
/// The longest vector, in bytes: 1,024 components of four bytes.
pub const VECTOR_LIMIT: usize = 4_096;
/// The longest file that the lister lists, in bytes.
pub const LISTED_LIMIT: usize = 65_536;
/// Room for the longest list: 1,027 lines of at most 97 bytes.
pub const LIST_ROOM: usize = 102_400;
/// The longest batch, in bytes.
pub const BATCH_LIMIT: usize = 1_048_576;
/// The type of a segment of vectors, and of a manifest.
pub const VEC: u8 = 1;
pub const MANIFEST: u8 = 5;

/// The CRC32C (RFC 3720) of all bytes.
pub fn crc32c(bytes: &[u8]) -> u32 {
    unsafe { sys::rvf_crc32c(bytes.as_ptr(), bytes.len()) }
}

/// What a call answered, as a `Result`: 0 is acceptance.
///
/// Panics on a number that the library is proved not to answer.
fn accepted(number: u32) -> Result<(), Refusal> {
    match number {
        0 => Ok(()),
        other => Err(Refusal::from_number(other).expect("the library answers 0 to 15")),
    }
}
