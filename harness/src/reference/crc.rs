//! CRC32C, document 01, section "The chain from byte 0": the Castagnoli code of
//! RFC 3720. Two forms: the fast one takes sixteen bytes a step by sixteen tables,
//! the plain one a bit a step; each is checked against the other. A third, quicker one
//! stands in `sparse`: the benchmark can have the reference take that.

use std::sync::atomic::{AtomicBool, Ordering::Relaxed};

/// Whether the reference takes its checksums by `sparse`.
static BEST: AtomicBool = AtomicBool::new(false);

/// Has the reference take its checksums by the best form, or by the textbook's.
pub fn take_best(best: bool) {
    BEST.store(best, Relaxed);
}

/// The Castagnoli polynomial, bits reversed.
const POLYNOMIAL: u32 = 0x82F6_3B78;

/// `TABLES[k][b]`: the remainder of byte `b` followed by `k` zero bytes.
static TABLES: [[u32; 256]; 16] = tables();

const fn tables() -> [[u32; 256]; 16] {
    let mut tables = [[0u32; 256]; 16];
    let mut byte = 0;
    while byte < 256 {
        let mut crc = byte as u32;
        let mut bit = 0;
        while bit < 8 {
            crc = if crc & 1 == 1 { (crc >> 1) ^ POLYNOMIAL } else { crc >> 1 };
            bit += 1;
        }
        tables[0][byte] = crc;
        byte += 1;
    }
    let mut k = 1;
    while k < 16 {
        let mut byte = 0;
        while byte < 256 {
            let before = tables[k - 1][byte];
            tables[k][byte] = (before >> 8) ^ tables[0][(before & 255) as usize];
            byte += 1;
        }
        k += 1;
    }
    tables
}

#[inline(always)]
fn word(chunk: &[u8; 16], at: usize) -> u32 {
    u32::from_le_bytes([chunk[at], chunk[at + 1], chunk[at + 2], chunk[at + 3]])
}

/// Four lookups for one 32-bit word; `high` is the table of its first byte.
#[inline(always)]
fn four(word: u32, high: usize) -> u32 {
    TABLES[high][(word & 255) as usize]
        ^ TABLES[high - 1][(word >> 8 & 255) as usize]
        ^ TABLES[high - 2][(word >> 16 & 255) as usize]
        ^ TABLES[high - 3][(word >> 24) as usize]
}

/// The register after all the bytes (slicing-by-16).
#[inline(always)]
pub(super) fn sliced(register: u32, data: &[u8]) -> u32 {
    let mut crc = register;
    let mut chunks = data.chunks_exact(16);
    for chunk in &mut chunks {
        let chunk: &[u8; 16] = chunk.try_into().unwrap();
        crc = four(word(chunk, 0) ^ crc, 15)
            ^ four(word(chunk, 4), 11)
            ^ four(word(chunk, 8), 7)
            ^ four(word(chunk, 12), 3);
    }
    for &byte in chunks.remainder() {
        crc = (crc >> 8) ^ TABLES[0][((crc ^ byte as u32) & 255) as usize];
    }
    crc
}

/// The checksum of all the bytes by the textbook's tables.
pub fn crc32c_sliced(data: &[u8]) -> u32 {
    !sliced(!0, data)
}

/// The checksum of all the bytes, by the textbook's tables unless the best form was asked for.
pub fn crc32c(data: &[u8]) -> u32 {
    if BEST.load(Relaxed) {
        return super::sparse::crc32c(data);
    }
    crc32c_sliced(data)
}

/// The same checksum a bit at a time, as the definition has it.
pub fn crc32c_bitwise(data: &[u8]) -> u32 {
    let mut crc = !0u32;
    for &byte in data {
        crc ^= byte as u32;
        for _ in 0..8 {
            crc = if crc & 1 == 1 { (crc >> 1) ^ POLYNOMIAL } else { crc >> 1 };
        }
    }
    !crc
}

/// The published vectors of RFC 3720, appendix B.4, and the usual check value.
pub fn published() -> Vec<(Vec<u8>, u32)> {
    let mut read_command = vec![0u8; 48];
    for (at, byte) in [(0, 0x01), (1, 0xC0), (16, 0x14), (22, 0x04), (27, 0x14), (31, 0x18), (32, 0x28), (40, 0x02)] {
        read_command[at] = byte;
    }
    vec![
        (vec![0u8; 32], 0x8A91_36AA),
        (vec![0xFFu8; 32], 0x62A8_AB43),
        ((0..32).collect(), 0x46DD_794E),
        ((0..32).rev().collect(), 0x113F_DB5C),
        (read_command, 0xD996_3A56),
        (b"123456789".to_vec(), 0xE306_9283),
        (Vec::new(), 0),
    ]
}

#[cfg(test)]
mod tests {
    use super::*;
    use crate::gen::Rng;

    #[test]
    fn both_forms_give_the_published_values() {
        for (data, value) in published() {
            assert_eq!(crc32c(&data), value, "fast {data:02x?}");
            assert_eq!(crc32c_bitwise(&data), value, "bitwise {data:02x?}");
        }
    }

    #[test]
    fn both_forms_agree_at_every_length_and_alignment() {
        let data = Rng::new(11).bytes(800);
        for from in 0..17 {
            for to in from..from + 300 {
                let part = &data[from..to];
                assert_eq!(crc32c(part), crc32c_bitwise(part), "bytes {from} to {to}");
            }
        }
    }
}
