//! Id maps, and the varints that they are made of.

use crate::{accepted, sys, Encoding, Refusal};

/// The most ids that a map has.
pub const IDS_LIMIT: usize = 4_096;
/// The longest map, in bytes: seven of head, then for each id a restart offset of four
/// and a varint of ten.
const MAP_LIMIT: usize = 7 + (4 + 10) * IDS_LIMIT;

/// Reads the map of `count` ids at the front of the bytes; more may follow. Answers the
/// ids and the map's length in bytes.
pub fn read_ids(bytes: &[u8], count: u64) -> Result<(Vec<u64>, usize), Refusal> {
    // A count above the limit is refused before anything is written.
    let mut ids = vec![0; count.min(IDS_LIMIT as u64) as usize];
    let mut out = [0; 1];
    let (at, room) = (ids.as_mut_ptr(), ids.len());
    accepted(unsafe { sys::rvf_idmap_read(bytes.as_ptr(), bytes.len(), count, at, room, &mut out) })?;
    Ok((ids, out[0] as usize))
}

/// The map of ids that rise strictly, 1 to 4,096 of them.
pub fn write_ids(ids: &[u64], encoding: Encoding) -> Result<Vec<u8>, Refusal> {
    let (encoding, interval) = encoding.numbers();
    let mut buffer = vec![0; MAP_LIMIT];
    let mut out = [0; 1];
    let (at, room) = (buffer.as_mut_ptr(), buffer.len());
    accepted(unsafe { sys::rvf_idmap_write(at, room, ids.as_ptr(), ids.len(), encoding, interval, &mut out) })?;
    buffer.truncate(out[0] as usize);
    Ok(buffer)
}

/// Reads the varint at the front of the bytes; more may follow. Answers its value and
/// its length in bytes.
pub fn read_varint(bytes: &[u8]) -> Result<(u64, usize), Refusal> {
    let mut out = [0; 2];
    accepted(unsafe { sys::rvf_varint_read(bytes.as_ptr(), bytes.len(), &mut out) })?;
    Ok((out[0], out[1] as usize))
}

/// Writes the varint of a number to the front of the buffer; answers its length, which
/// is at most ten bytes.
pub fn write_varint(buffer: &mut [u8], value: u64) -> Result<usize, Refusal> {
    let mut out = [0; 1];
    accepted(unsafe { sys::rvf_varint_write(buffer.as_mut_ptr(), buffer.len(), value, &mut out) })?;
    Ok(out[0] as usize)
}
