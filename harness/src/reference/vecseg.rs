//! VEC_SEG payloads, document 01, section "Vector blocks and id maps"; the writer's
//! order of refusals is in "The batch sheet and appending".
//!
//! The check goes exactly in the order that the section lists, since a payload with
//! several faults must answer the number of the first.

use super::refusal::{BLOCK_CRC, DTYPE, INPUT, LAYOUT, NO_ROOM};
use super::{all_zero, crc, idmap, le16, le32, limits, round64};

/// Bytes of a block directory line.
const LINE: usize = 12;
/// Bytes before the first line: the block count.
const COUNT: usize = 4;

/// Bytes of one value, for a dtype that is held: 0 f32, 3 i8, 4 u8.
#[inline]
pub fn width(dtype: u8) -> Option<usize> {
    match dtype {
        0 => Some(4),
        3 | 4 => Some(1),
        _ => None,
    }
}

/// One line of the block directory.
#[derive(Clone, Copy, Debug)]
pub struct Line {
    pub offset: u32,
    pub count: usize,
    pub dim: usize,
    pub dtype: u8,
}

/// The line at an index; the caller has checked that the lines are there.
#[inline]
pub fn line(payload: &[u8], index: usize) -> Line {
    let at = COUNT + LINE * index;
    Line {
        offset: le32(payload, at),
        count: le32(payload, at + 4) as usize,
        dim: le16(payload, at + 8) as usize,
        dtype: payload[at + 10],
    }
}

/// The check of a payload without its hash: 5, 6 or 7 at the first broken rule.
pub fn check(payload: &[u8]) -> Result<(), u32> {
    // Block count, and room for its lines.
    if payload.len() < COUNT {
        return Err(LAYOUT);
    }
    let blocks = le32(payload, 0) as usize;
    if blocks > limits::BLOCKS || payload.len() < COUNT + LINE * blocks {
        return Err(LAYOUT);
    }
    // Each line: counts and dim, then dtype.
    for index in 0..blocks {
        let line = line(payload, index);
        if line.count == 0 || line.count > limits::VECTORS || line.dim == 0 || line.dim > limits::DIM {
            return Err(LAYOUT);
        }
        if width(line.dtype).is_none() {
            return Err(DTYPE);
        }
    }
    // The fill up to the first block.
    let mut at = round64(COUNT + LINE * blocks);
    match payload.get(COUNT + LINE * blocks..at) {
        Some(fill) if all_zero(fill) => (),
        _ => return Err(LAYOUT),
    }
    for index in 0..blocks {
        let line = line(payload, index);
        if line.offset as usize != at {
            return Err(LAYOUT);
        }
        at += check_block(&payload[at..], line)?;
    }
    if at == payload.len() { Ok(()) } else { Err(LAYOUT) }
}

/// Checks the block at the front of `rest`; answers its length with the padding.
fn check_block(rest: &[u8], line: Line) -> Result<usize, u32> {
    let columns = line.count * line.dim * width(line.dtype).ok_or(DTYPE)?;
    let Some(map) = rest.get(columns..) else {
        return Err(LAYOUT);
    };
    let covered = columns + idmap::check(map, line.count)?;
    let end = covered + 4;
    if rest.len() < end {
        return Err(LAYOUT);
    }
    if le32(rest, covered) != crc::crc32c(&rest[..covered]) {
        return Err(BLOCK_CRC);
    }
    match rest.get(end..round64(end)) {
        Some(padding) if all_zero(padding) => Ok(round64(end)),
        _ => Err(LAYOUT),
    }
}

/// A vector's place in a checked payload: its block's line and its index there.
#[derive(Clone, Copy, Debug)]
pub struct Place {
    pub line: Line,
    pub index: usize,
}

/// Looks for an id in a checked payload, from the last block to the first.
pub fn find(payload: &[u8], id: u64) -> Option<Place> {
    (0..le32(payload, 0) as usize).rev().find_map(|block| {
        let line = line(payload, block);
        let columns = line.count * line.dim * width(line.dtype)?;
        let index = idmap::find(&payload[line.offset as usize + columns..], line.count, id)?;
        Some(Place { line, index })
    })
}

/// Writes a vector's bytes in dimension order to the front of the buffer.
pub fn vector(payload: &[u8], place: Place, buffer: &mut [u8]) -> Result<usize, u32> {
    let Line { offset, count, dim, dtype } = place.line;
    let width = width(dtype).ok_or(DTYPE)?;
    let room = buffer.get_mut(..dim * width).ok_or(NO_ROOM)?;
    let columns = &payload[offset as usize..][..count * dim * width];
    if width == 4 {
        for (value, column) in room.chunks_exact_mut(4).zip(columns.chunks_exact(4 * count)) {
            value.copy_from_slice(&column[4 * place.index..4 * place.index + 4]);
        }
    } else {
        for (value, column) in room.iter_mut().zip(columns.chunks_exact(count)) {
            *value = column[place.index];
        }
    }
    Ok(dim * width)
}

/// One component's bits: a float's four bytes, or the one byte, as a number. The
/// caller has compared the index with dim.
pub fn component(payload: &[u8], place: Place, index: usize) -> u32 {
    let Line { offset, count, dtype, .. } = place.line;
    let at = offset as usize;
    let value = index * count + place.index;
    if width(dtype) == Some(4) { le32(payload, at + 4 * value) } else { payload[at + value] as u32 }
}

/// Builds a one-block payload at the front of the buffer and answers its length.
#[allow(clippy::too_many_arguments)]
pub fn write(
    buffer: &mut [u8],
    ids: &[u64],
    columns: &[u8],
    dim: u64,
    dtype: u64,
    tier: u64,
    encoding: u64,
    interval: u64,
) -> Result<usize, u32> {
    if dim == 0 || dim > limits::DIM as u64 || dtype > 255 || tier > 255 {
        return Err(INPUT);
    }
    let width = width(dtype as u8).ok_or(INPUT)?;
    let map = idmap::plan(ids, encoding, interval)?;
    if columns.len() != ids.len() * dim as usize * width {
        return Err(INPUT);
    }
    let first = round64(COUNT + LINE);
    let covered = columns.len() + map.length;
    let end = first + round64(covered + 4);
    let payload = buffer.get_mut(..end).ok_or(NO_ROOM)?;
    let (head, block) = payload.split_at_mut(first);
    head.fill(0);
    head[0] = 1;
    head[4..8].copy_from_slice(&(first as u32).to_le_bytes());
    head[8..12].copy_from_slice(&(ids.len() as u32).to_le_bytes());
    head[12..14].copy_from_slice(&(dim as u16).to_le_bytes());
    head[14] = dtype as u8;
    head[15] = tier as u8;
    block[..columns.len()].copy_from_slice(columns);
    idmap::fill(&mut block[columns.len()..covered], ids, map);
    let crc = crc::crc32c(&block[..covered]);
    block[covered..covered + 4].copy_from_slice(&crc.to_le_bytes());
    block[covered + 4..].fill(0);
    Ok(end)
}

#[cfg(test)]
mod tests {
    use super::*;

    /// Document 01, section "Worked numbers": both payloads are 128 bytes.
    #[test]
    fn worked_numbers() {
        let ids = [100, 105, 108, 120, 200];
        for interval in [64, 2] {
            let mut buffer = [0xA5; 130];
            assert_eq!(write(&mut buffer, &ids, &[9, 8, 7, 6, 5], 1, 4, 3, 1, interval), Ok(128));
            assert_eq!(buffer[128..], [0xA5; 2]);
            assert_eq!(check(&buffer[..128]), Ok(()));
            assert_eq!(check(&buffer[..129]), Err(LAYOUT));
            let place = find(&buffer[..128], 108).expect("108 is there");
            assert_eq!((place.index, component(&buffer, place, 0)), (2, 7));
            assert!(find(&buffer[..128], 109).is_none());
            buffer[64] ^= 1;
            assert_eq!(check(&buffer[..128]), Err(BLOCK_CRC));
            buffer[14] = 1;
            assert_eq!(check(&buffer[..128]), Err(DTYPE));
            buffer[8] = 0;
            assert_eq!(check(&buffer[..128]), Err(LAYOUT));
        }
    }

    #[test]
    fn no_blocks_is_64_zero_bytes() {
        assert_eq!(check(&[0; 64]), Ok(()));
        for length in [0, 3, 4, 63, 65, 128] {
            assert_eq!(check(&vec![0; length]), Err(LAYOUT), "length {length}");
        }
    }
}
