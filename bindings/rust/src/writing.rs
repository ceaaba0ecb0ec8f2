//! Writing: payloads of vectors, batches, the append, and the fresh file of a compaction.

use crate::{accepted, sys, Dtype, Refusal, BATCH_LIMIT};

/// How the ids of a block are written.
#[derive(Clone, Copy, Debug, PartialEq, Eq)]
pub enum Encoding {
    Raw,
    /// Differences, with a restart after every so many ids; 0 means 64.
    Delta { interval: u16 },
}

impl Encoding {
    /// The library's numbers for the encoding and its interval.
    pub(crate) fn numbers(self) -> (u64, u64) {
        match self {
            Encoding::Raw => (0, 0),
            Encoding::Delta { interval } => (1, u64::from(interval)),
        }
    }
}

/// Vectors to be written as one block. The ids rise strictly; the columns are all values
/// of dimension 0, then all of dimension 1, and so on.
#[derive(Clone, Copy, Debug)]
pub struct Vectors<'a> {
    pub ids: &'a [u64],
    pub columns: &'a [u8],
    pub dim: u64,
    pub dtype: Dtype,
    pub tier: u8,
    pub encoding: Encoding,
}

/// The payload of a segment that holds these vectors. A payload that no batch could hold
/// is refused as one for which there is no room.
pub fn vectors(input: &Vectors) -> Result<Vec<u8>, Refusal> {
    let (encoding, interval) = input.encoding.numbers();
    let mut buffer = vec![0; BATCH_LIMIT];
    let mut out = [0; 1];
    accepted(unsafe {
        sys::rvf_vec_write(
            buffer.as_mut_ptr(),
            buffer.len(),
            input.ids.as_ptr(),
            input.ids.len(),
            input.columns.as_ptr(),
            input.columns.len(),
            input.dim,
            input.dtype.number(),
            u64::from(input.tier),
            encoding,
            interval,
            &mut out,
        )
    })?;
    buffer.truncate(out[0] as usize);
    Ok(buffer)
}

/// A body of a batch: it becomes a segment. Its type is one of 0x01 to 0x0D and 0xF0 to 0xFF, but
/// not that of manifests.
#[derive(Clone, Copy, Debug)]
pub struct Body<'a> {
    pub kind: u8,
    pub flags: u16,
    pub bytes: &'a [u8],
}

/// The bytes of a batch. Whether it keeps the rules (at most 16 bodies, say) is decided by
/// the append, which refuses it as a whole; lengths that pass a u32 cannot be kept by any.
pub fn batch(bodies: &[Body]) -> Vec<u8> {
    let mut offset = 16 + 16 * bodies.len();
    let mut bytes = vec![0; offset];
    bytes[..4].copy_from_slice(&(bodies.len() as u32).to_le_bytes());
    for (line, body) in bytes[16..].chunks_exact_mut(16).zip(bodies) {
        line[0] = body.kind;
        line[2..4].copy_from_slice(&body.flags.to_le_bytes());
        line[4..8].copy_from_slice(&(offset as u32).to_le_bytes());
        line[8..12].copy_from_slice(&(body.bytes.len() as u32).to_le_bytes());
        offset += body.bytes.len();
    }
    bodies.iter().for_each(|body| bytes.extend_from_slice(body.bytes));
    bytes
}

/// What an append reports.
#[derive(Clone, Copy, Debug, PartialEq, Eq)]
pub struct Appended {
    /// The file's length from now on.
    pub end: u64,
    /// The new manifest's id, and how many entries its directory has.
    pub id: u64,
    pub count: u64,
}

/// Appends a batch to the file that is the first `length` bytes of the buffer; the segments
/// with the ids in `retire` become retired.
pub fn append(buffer: &mut [u8], length: usize, batch: &[u8], retire: &[u64], timestamp: u64) -> Result<Appended, Refusal> {
    let mut out = [0; 3];
    let (at, room) = (buffer.as_mut_ptr(), buffer.len());
    accepted(unsafe {
        sys::rvf_append(
            at,
            room,
            length as u64,
            batch.as_ptr(),
            batch.len(),
            retire.as_ptr(),
            retire.len(),
            timestamp,
            &mut out,
        )
    })?;
    let [end, id, count] = out;
    Ok(Appended { end, id, count })
}

/// What a compaction reports.
#[derive(Clone, Copy, Debug, PartialEq, Eq)]
pub struct Compacted {
    /// The fresh file's length.
    pub end: u64,
    /// The manifest's id, which is that of the old one, and how many entries its directory has.
    pub id: u64,
    pub count: u64,
}

/// Writes a fresh file to the front of the buffer: the live segments but the manifests, each as
/// it is, and one manifest with the id and timestamp of the file's own. Vectors, components and
/// the payloads of kept segments answer as before; later appends get the ids they would have got.
///
/// The fresh file never ends behind the end of the file's manifest, so a buffer of that length
/// is never too short. Refuses 4 where a segment that would be copied does not agree with its
/// hash: a copy would carry the damage on.
pub fn compact(file: &[u8], buffer: &mut [u8]) -> Result<Compacted, Refusal> {
    let mut out = [0; 3];
    let (at, room) = (buffer.as_mut_ptr(), buffer.len());
    accepted(unsafe { sys::rvf_compact(file.as_ptr(), file.len(), at, room, &mut out) })?;
    let [end, id, count] = out;
    Ok(Compacted { end, id, count })
}
