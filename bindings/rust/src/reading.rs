//! Reading: the manifest, its directory, payloads, vectors and components of a file.

use crate::{accepted, sys, Refusal, LIST_ROOM, VECTOR_LIMIT};
use std::fmt;

/// What opening answers: the file's manifest.
#[derive(Clone, Copy, Debug, PartialEq, Eq)]
pub struct Manifest {
    pub offset: u64,
    /// Where the manifest ends; what lies behind is no part of the store.
    pub end: u64,
    pub id: u64,
    /// How many entries its directory has.
    pub count: u64,
    /// How many boundaries the search from the end tried.
    pub tried: u64,
}

/// Opening refused. Where the file has no manifest, the boundaries tried are told.
#[derive(Clone, Copy, Debug, PartialEq, Eq)]
pub struct OpenRefused {
    pub refusal: Refusal,
    pub tried: Option<u64>,
}

impl From<OpenRefused> for Refusal {
    fn from(refused: OpenRefused) -> Refusal {
        refused.refusal
    }
}

impl fmt::Display for OpenRefused {
    fn fmt(&self, out: &mut fmt::Formatter<'_>) -> fmt::Result {
        self.refusal.fmt(out)
    }
}

impl std::error::Error for OpenRefused {}

/// The file's manifest.
pub fn open(file: &[u8]) -> Result<Manifest, OpenRefused> {
    let mut out = [0; 5];
    let number = unsafe { sys::rvf_open(file.as_ptr(), file.len(), &mut out) };
    let [offset, end, id, count, tried] = out;
    match accepted(number) {
        Ok(()) => Ok(Manifest { offset, end, id, count, tried }),
        Err(refusal) => Err(OpenRefused { refusal, tried: (refusal == Refusal::NoManifest).then_some(tried) }),
    }
}

/// An entry of the directory.
#[derive(Clone, Copy, Debug, PartialEq, Eq)]
pub struct Entry {
    pub offset: u64,
    pub id: u64,
    /// The payload's length in bytes.
    pub length: u64,
    pub hash: [u8; 16],
    pub kind: u8,
    pub retired: bool,
    pub flags: u16,
}

/// The number that `rvf_entry` answers for an index at or above the count.
const NO_ENTRY: u32 = 255;

/// The entry with an index in the directory; none at or above the count.
pub fn entry(file: &[u8], index: u64) -> Result<Option<Entry>, Refusal> {
    let mut out = [0; 8];
    let number = unsafe { sys::rvf_entry(file.as_ptr(), file.len(), index, &mut out) };
    if number == NO_ENTRY {
        return Ok(None);
    }
    accepted(number)?;
    let [offset, id, length, low, high, kind, state, flags] = out;
    let mut hash = [0; 16];
    hash[..8].copy_from_slice(&low.to_le_bytes());
    hash[8..].copy_from_slice(&high.to_le_bytes());
    Ok(Some(Entry { offset, id, length, hash, kind: kind as u8, retired: state != 0, flags: flags as u16 }))
}

/// The whole directory, in its order.
pub fn entries(file: &[u8]) -> Result<Vec<Entry>, Refusal> {
    // What lies behind the manifest's end would be searched again for each entry.
    let manifest = open(file)?;
    let file = &file[..manifest.end as usize];
    let each = (0..manifest.count).map(|index| entry(file, index));
    Ok(each.collect::<Result<Vec<_>, _>>()?.into_iter().flatten().collect())
}

/// What the lister prints about a file of at most `LISTED_LIMIT` bytes: a line an entry, the
/// manifest and its end; or the line `refused n`.
pub fn list(file: &[u8]) -> String {
    let mut buffer = vec![0; LIST_ROOM];
    let mut out = [0; 1];
    let (at, room) = (buffer.as_mut_ptr(), buffer.len());
    accepted(unsafe { sys::rvf_list(file.as_ptr(), file.len(), at, room, &mut out) }).expect("the buffer has room for any list");
    buffer.truncate(out[0] as usize);
    String::from_utf8(buffer).expect("a list is ASCII")
}

/// The payload of the live segment with an id: a part of the file itself. Its hash
/// agrees; what lies inside is not checked. One of a reserved type, 0x0E to 0xEF, is not
/// handed out.
pub fn payload(file: &[u8], id: u64) -> Result<&[u8], Refusal> {
    let mut out = [0; 2];
    accepted(unsafe { sys::rvf_payload(file.as_ptr(), file.len(), id, &mut out) })?;
    let [start, length] = out;
    Ok(&file[start as usize..][..length as usize])
}

/// The kind of a vector's components.
#[derive(Clone, Copy, Debug, PartialEq, Eq)]
pub enum Dtype {
    F32,
    I8,
    U8,
}

impl Dtype {
    pub fn number(self) -> u64 {
        match self {
            Dtype::F32 => 0,
            Dtype::I8 => 3,
            Dtype::U8 => 4,
        }
    }

    fn of(number: u64) -> Dtype {
        match number {
            0 => Dtype::F32,
            3 => Dtype::I8,
            4 => Dtype::U8,
            other => unreachable!("the library answers no dtype {other}"),
        }
    }

    /// Bytes a component takes.
    pub fn width(self) -> usize {
        if self == Dtype::F32 { 4 } else { 1 }
    }

    /// The component whose bytes are a little-endian number.
    fn component(self, bits: u64) -> Component {
        match self {
            Dtype::F32 => Component::F32(f32::from_bits(bits as u32)),
            Dtype::I8 => Component::I8(bits as u8 as i8),
            Dtype::U8 => Component::U8(bits as u8),
        }
    }
}

/// A component of a vector.
#[derive(Clone, Copy, Debug, PartialEq)]
pub enum Component {
    F32(f32),
    I8(i8),
    U8(u8),
}

impl fmt::Display for Component {
    fn fmt(&self, out: &mut fmt::Formatter<'_>) -> fmt::Result {
        match self {
            Component::F32(value) => value.fmt(out),
            Component::I8(value) => value.fmt(out),
            Component::U8(value) => value.fmt(out),
        }
    }
}

/// What a vector written to a buffer is: its dimension, kind and length in bytes.
#[derive(Clone, Copy, Debug, PartialEq, Eq)]
pub struct Shape {
    pub dim: usize,
    pub dtype: Dtype,
    pub length: usize,
}

impl Shape {
    /// The shape that the library's values tell.
    pub(crate) fn of([dim, dtype, length]: [u64; 3]) -> Shape {
        Shape { dim: dim as usize, dtype: Dtype::of(dtype), length: length as usize }
    }
}

/// Writes the vector with an id to the front of the buffer, in dimension order.
pub fn vector_into(file: &[u8], id: u64, buffer: &mut [u8]) -> Result<Shape, Refusal> {
    let mut out = [0; 3];
    let (at, room) = (buffer.as_mut_ptr(), buffer.len());
    accepted(unsafe { sys::rvf_vector(file.as_ptr(), file.len(), id, at, room, &mut out) })?;
    Ok(Shape::of(out))
}

/// A vector: its bytes in dimension order, and what they are.
#[derive(Clone, Debug, PartialEq, Eq)]
pub struct Vector {
    pub dtype: Dtype,
    pub bytes: Vec<u8>,
}

impl Vector {
    pub fn components(&self) -> impl Iterator<Item = Component> + '_ {
        let number = |bytes: &[u8]| bytes.iter().rev().fold(0, |bits, &byte| bits << 8 | u64::from(byte));
        self.bytes.chunks_exact(self.dtype.width()).map(move |bytes| self.dtype.component(number(bytes)))
    }
}

/// The vector that a call writes to a buffer; the buffer holds the longest there is.
pub(crate) fn owned(write: impl FnOnce(&mut [u8]) -> Result<Shape, Refusal>) -> Result<Vector, Refusal> {
    let mut buffer = [0; VECTOR_LIMIT];
    let shape = write(&mut buffer)?;
    Ok(Vector { dtype: shape.dtype, bytes: buffer[..shape.length].to_vec() })
}

/// The vector with an id.
pub fn vector(file: &[u8], id: u64) -> Result<Vector, Refusal> {
    owned(|buffer| vector_into(file, id, buffer))
}

/// A component of the vector with an id.
pub fn component(file: &[u8], id: u64, index: u64) -> Result<Component, Refusal> {
    let mut out = [0; 2];
    accepted(unsafe { sys::rvf_component(file.as_ptr(), file.len(), id, index, &mut out) })?;
    Ok(Dtype::of(out[0]).component(out[1]))
}
