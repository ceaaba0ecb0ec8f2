//! What a disk may store of the steps between two flushes: any part of them, in any order.

use super::cases::{write, Step};

pub const SECTOR: usize = 512;

/// A part of an unflushed step that a disk stores or loses by itself.
#[derive(Clone)]
pub enum Part {
    /// The file's length becomes this, or at least this.
    Length { exactly: bool, length: usize },
    Data { offset: usize, bytes: Vec<u8> },
}

/// A write is a length and the sectors that it touches; each may be lost by itself.
pub fn parts(step: &Step) -> Vec<Part> {
    let Step::Write(offset, bytes) = step else {
        return match step {
            Step::SetLen(length) => vec![Part::Length { exactly: true, length: *length as usize }],
            _ => Vec::new(),
        };
    };
    let (mut parts, mut at, mut rest) = (Vec::new(), *offset as usize, &bytes[..]);
    while !rest.is_empty() {
        let (sector, more) = rest.split_at(rest.len().min(SECTOR - at % SECTOR));
        parts.push(Part::Data { offset: at, bytes: sector.to_vec() });
        at += sector.len();
        parts.push(Part::Length { exactly: false, length: at });
        rest = more;
    }
    parts
}

/// The file that is left where some parts were stored. Data that the stored length does not
/// reach is not seen; a length without its data shows zeros.
pub fn stored(file: &[u8], parts: &[Part], keep: impl Fn(usize) -> bool) -> Vec<u8> {
    let (mut bytes, mut length) = (file.to_vec(), file.len());
    for (_, part) in parts.iter().enumerate().filter(|(index, _)| keep(*index)) {
        match part {
            Part::Length { exactly: true, length: new } => {
                length = *new;
                bytes.truncate(*new);
            }
            Part::Length { length: new, .. } => length = length.max(*new),
            Part::Data { offset, bytes: data } => write(&mut bytes, *offset, data),
        }
    }
    bytes.resize(length, 0);
    bytes
}

/// The places at which a write may stop: every one, or those around every multiple of 64 and of
/// a sector.
pub fn cuts(length: usize, every: bool) -> Vec<usize> {
    let near = |place: &usize| every || matches!(place % 64, 0 | 1 | 5 | 16 | 63) || place % SECTOR < 2;
    (0..=length).filter(near).collect()
}

/// A subset of parts by chance, from nearly none to nearly all.
pub fn chosen(random: &mut super::Random) -> impl Fn(usize) -> bool {
    let (share, mix) = (random.below(101) as u64, random.next());
    move |index: usize| (mix.rotate_left(7 * index as u32).wrapping_mul(0x2545_F491_4F6C_DD1D) >> 33) % 100 < share
}
