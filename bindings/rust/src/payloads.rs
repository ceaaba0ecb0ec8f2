//! Payloads of vectors by themselves, without a file around them.

use crate::reading::owned;
use crate::{accepted, sys, Refusal, Shape, Vector};

/// The check of a payload of vectors: its layout, id maps, dtypes and block checksums.
/// The refusal is that of the first rule that it breaks, in the check's order.
pub fn check_vectors(payload: &[u8]) -> Result<(), Refusal> {
    accepted(unsafe { sys::rvf_vec_check(payload.as_ptr(), payload.len()) })
}

/// Writes the vector with an id to the front of the buffer, in dimension order. The
/// payload is checked whole first; the last block that holds the id answers.
pub fn vector_of_into(payload: &[u8], id: u64, buffer: &mut [u8]) -> Result<Shape, Refusal> {
    let mut out = [0; 3];
    let (at, room) = (buffer.as_mut_ptr(), buffer.len());
    accepted(unsafe { sys::rvf_vec_read(payload.as_ptr(), payload.len(), id, at, room, &mut out) })?;
    Ok(Shape::of(out))
}

/// The vector with an id out of a payload.
pub fn vector_of(payload: &[u8], id: u64) -> Result<Vector, Refusal> {
    owned(|buffer| vector_of_into(payload, id, buffer))
}
