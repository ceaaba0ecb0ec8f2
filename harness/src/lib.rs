//! The harness of the store: a reference implementation of document 01 in plain Rust,
//! the exported calls of the store's static library, and what both need to be
//! compared (generators, vector files, runs with guarded buffers).

pub mod calls;
#[cfg(feature = "linked")]
pub mod ffi;
pub mod gen;
pub mod house;
pub mod model;
pub mod reference;
pub mod runner;
pub mod vectors;
