//! VEC_SEG payloads for the comparisons. A draft holds the parts of a payload; faults
//! are put into the parts, several at once if wanted, and the draft is then laid out
//! with all else as the rules have it. So a fault late in the check order is not
//! hidden by one that it caused earlier.

use super::{maps, Rng};
use crate::calls::VecInput;
use crate::reference::{crc, limits, round64, vecseg};

/// A block in parts. The offset of its line is the true one plus `shift`.
#[derive(Clone, Debug)]
pub struct DraftBlock {
    pub shift: u32,
    pub count: u32,
    pub dim: u16,
    pub dtype: u8,
    pub tier: u8,
    pub columns: Vec<u8>,
    pub map: Vec<u8>,
    /// Flips bits of the right CRC.
    pub crc_flip: u32,
    /// Put at a place in the padding, if there is any.
    pub padding: Option<(usize, u8)>,
}

/// A payload in parts.
#[derive(Clone, Debug)]
pub struct Draft {
    pub blocks: Vec<DraftBlock>,
    /// The block count that is written, if not the number of blocks.
    pub count: Option<u32>,
    /// Put at a place in the fill behind the lines, if there is any.
    pub fill: Option<(usize, u8)>,
    /// Bytes behind the last block.
    pub tail: Vec<u8>,
    /// Where the payload is cut, if at all.
    pub cut: Option<usize>,
}

fn pad(bytes: &mut Vec<u8>, with: Option<(usize, u8)>) {
    let from = bytes.len();
    bytes.resize(round64(from), 0);
    if let (Some((at, value)), true) = (with, bytes.len() > from) {
        let place = from + at % (bytes.len() - from);
        bytes[place] = value;
    }
}

impl Draft {
    pub fn bytes(&self) -> Vec<u8> {
        let mut lines = self.count.unwrap_or(self.blocks.len() as u32).to_le_bytes().to_vec();
        let first = round64(4 + 12 * self.blocks.len());
        let mut rest = Vec::new();
        for block in &self.blocks {
            let offset = (first + rest.len()) as u32;
            lines.extend_from_slice(&offset.wrapping_add(block.shift).to_le_bytes());
            lines.extend_from_slice(&block.count.to_le_bytes());
            lines.extend_from_slice(&block.dim.to_le_bytes());
            lines.extend_from_slice(&[block.dtype, block.tier]);
            let from = rest.len();
            rest.extend_from_slice(&block.columns);
            rest.extend_from_slice(&block.map);
            let crc = crc::crc32c(&rest[from..]) ^ block.crc_flip;
            rest.extend_from_slice(&crc.to_le_bytes());
            pad(&mut rest, block.padding);
        }
        pad(&mut lines, self.fill);
        lines.extend_from_slice(&rest);
        lines.extend_from_slice(&self.tail);
        lines.truncate(self.cut.unwrap_or(usize::MAX));
        lines
    }
}

/// A block with the given ids, valid where count and dim keep their bounds.
pub fn block_of(rng: &mut Rng, ids: &[u64], dim: usize, dtype: u8) -> DraftBlock {
    let width = vecseg::width(dtype).expect("a dtype that is held");
    let interval = if rng.once_in(3) { 0 } else { rng.pick(&maps::intervals(ids.len())).clamp(1, 65_535) };
    DraftBlock {
        shift: 0,
        count: ids.len() as u32,
        dim: dim as u16,
        dtype,
        tier: rng.next() as u8,
        columns: rng.bytes(ids.len() * dim * width),
        map: maps::of_any_count(ids, interval as u16),
        crc_flip: 0,
        padding: None,
    }
}

/// A valid block; the ids are small where `close` is true, so that they meet in others.
pub fn block(rng: &mut Rng, close: bool) -> DraftBlock {
    let count = if rng.once_in(30) { rng.range(1, 200) } else { rng.range(1, 9) };
    let ids = if close { rng.rising(count, 0, 3) } else { maps::ids(rng, count) };
    let dim = rng.range(1, 6);
    let dtype = rng.pick(&[0, 3, 4]);
    block_of(rng, &ids, dim, dtype)
}

/// A valid payload of few blocks.
pub fn draft(rng: &mut Rng, close: bool) -> Draft {
    let blocks = match rng.below(40) {
        0 => rng.range(5, 64),
        1 => 0,
        _ => rng.range(1, 4),
    };
    let blocks = (0..blocks).map(|_| block(rng, close)).collect();
    Draft { blocks, count: None, fill: None, tail: Vec::new(), cut: None }
}

/// A valid payload of `blocks` blocks with `vectors` vectors of 8 u8 each.
pub fn many_blocks(rng: &mut Rng, blocks: usize, vectors: usize) -> Vec<u8> {
    let block = |_| {
        let ids = rng.rising(vectors, 500, 6);
        block_of(rng, &ids, 8, 4)
    };
    Draft { blocks: (0..blocks).map(block).collect(), count: None, fill: None, tail: Vec::new(), cut: None }.bytes()
}

/// Puts one fault into a draft.
pub fn spoil(rng: &mut Rng, draft: &mut Draft) {
    let blocks = draft.blocks.len();
    match rng.below(8) {
        0 => {
            let near = blocks as u32;
            let wrong = [near + 1, near.wrapping_sub(1), 0, 64, 65, u32::MAX, near + 256, near | 1 << 31];
            draft.count = Some(rng.pick(&wrong));
        }
        1 => draft.fill = Some((rng.below(64), rng.pick(&[1, 0x80, 0xFF]))),
        2 => {
            let length = rng.pick(&[1, 4, 63, 64, 65, 128]);
            draft.tail = if rng.once_in(4) { rng.bytes(length) } else { vec![0; length] };
        }
        3 => {
            let length = draft.bytes().len();
            let near = [length - 64, length - 1, 3, 4, 16, 63, 64, 4 + 12 * blocks];
            draft.cut = Some(if rng.once_in(2) { rng.pick(&near) } else { rng.below(length + 1) });
        }
        _ if blocks > 0 => {
            let at = rng.below(blocks);
            spoil_block(rng, &mut draft.blocks[at]);
        }
        _ => draft.tail = vec![0],
    }
}

fn spoil_block(rng: &mut Rng, block: &mut DraftBlock) {
    match rng.below(9) {
        0 => block.shift = rng.pick(&[1, 64, 128, u32::MAX, 64u32.wrapping_neg(), 1 << 31]),
        1 => block.count = rng.pick(&[0, block.count + 1, block.count - 1, 4_096, 4_097, u32::MAX]),
        2 => block.dim = rng.pick(&[0, block.dim + 1, block.dim - 1, 1_024, 1_025, u16::MAX]),
        3 => block.dtype = rng.pick(&[1, 2, 5, 6, 7, 8, 9, 128, 255, 0, 3, 4]),
        4 => {
            // A flipped bit in the columns, under the CRC of the bytes before the flip.
            let before = crc::crc32c(&[&block.columns[..], &block.map[..]].concat());
            let at = rng.below(block.columns.len());
            block.columns[at] ^= 1 << rng.below(8);
            block.crc_flip = before ^ crc::crc32c(&[&block.columns[..], &block.map[..]].concat());
        }
        5 => block.crc_flip = 1 << rng.below(32),
        6 => block.padding = Some((rng.below(64), rng.pick(&[1, 0x80, 0xFF]))),
        _ => {
            // A broken map; the CRC is right for it, or wrong too.
            let case = maps::case(rng);
            if rng.once_in(2) {
                block.map = case.data;
            } else {
                super::damage(rng, &mut block.map);
            }
            if rng.once_in(3) {
                block.crc_flip = 1;
            }
        }
    }
}

/// A payload for the check: valid, or with one to four faults, or damaged as bytes.
pub fn payload(rng: &mut Rng) -> Vec<u8> {
    let close = rng.once_in(2);
    let mut draft = draft(rng, close);
    let faults = rng.pick(&[0, 1, 1, 1, 2, 2, 3, 4]);
    for _ in 0..faults {
        spoil(rng, &mut draft);
    }
    let mut bytes = draft.bytes();
    if faults == 0 && rng.once_in(2) {
        super::damage(rng, &mut bytes);
    }
    bytes
}

/// Input for the vector writer: right, or with faults of the kinds that refuse 14.
pub fn input(rng: &mut Rng) -> VecInput {
    let count = match rng.below(50) {
        0 => rng.pick(&[0, 1, 4_095, 4_096, 4_097]),
        1 => rng.range(60, 300),
        _ => rng.range(1, 20),
    };
    let dim = if rng.once_in(50) { rng.pick(&[limits::DIM, limits::DIM - 1]) } else { rng.range(1, 9) };
    let dim = if count > 300 { dim.min(2) } else { dim };
    let dtype = rng.pick(&[0u64, 3, 4]);
    let width = if dtype == 0 { 4 } else { 1 };
    let encoding = rng.below(2) as u64;
    let interval = if encoding == 0 { 0 } else { rng.pick(&maps::intervals(count)) };
    let mut input = VecInput {
        ids: maps::ids(rng, count),
        columns: rng.bytes(count * dim * width),
        dim: dim as u64,
        dtype,
        tier: rng.below(256) as u64,
        encoding,
        interval,
    };
    for _ in 0..rng.pick(&[0, 0, 0, 1, 1, 2]) {
        spoil_input(rng, &mut input);
    }
    input
}

fn spoil_input(rng: &mut Rng, input: &mut VecInput) {
    let count = input.ids.len();
    match rng.below(8) {
        0 => input.dim = rng.pick(&[0, 1_025, input.dim + 1, 65_536 + input.dim, u64::MAX, 1 << 63]),
        1 => input.dtype = rng.pick(&[1, 2, 5, 255, 256, 259, 260, 1 << 32, u64::MAX]),
        2 => input.tier = rng.pick(&[255, 256, 257, u64::MAX]),
        3 => input.encoding = rng.pick(&[0, 1, 2, 256, 257, u64::MAX]),
        4 => input.interval = rng.pick(&[0, 1, 64, 65_535, 65_536, 65_600, u64::MAX]),
        5 => {
            let length = input.columns.len();
            input.columns.resize(rng.pick(&[0, length.saturating_sub(1), length + 1, length + 64, 4 * length]), 7);
        }
        6 if count > 1 => {
            let at = rng.range(1, count - 1);
            input.ids[at] = rng.pick(&[input.ids[at - 1], 0, u64::MAX]);
        }
        _ => input.ids.truncate(count.saturating_sub(1)),
    }
}

#[cfg(test)]
mod tests {
    use super::*;

    #[test]
    fn drafts_without_fault_are_valid_and_every_answer_occurs() {
        let mut rng = Rng::new(7);
        for _ in 0..2_000 {
            let close = rng.once_in(2);
            let payload = draft(&mut rng, close).bytes();
            assert_eq!(vecseg::check(&payload), Ok(()));
        }
        let mut seen = [0; 8];
        for _ in 0..4_000 {
            seen[vecseg::check(&payload(&mut rng)).err().unwrap_or(0) as usize] += 1;
        }
        assert!([0, 5, 6, 7].iter().all(|&number| seen[number as usize] > 100), "{seen:?}");
    }
}
