//! Varints, document 01, section "Vector blocks and id maps": unsigned LEB128,
//! shortest form only, at most 2^64 - 1. So a varint has at most ten bytes, a tenth
//! byte is exactly 01, and a last byte 00 is allowed only where it is the first.

use super::refusal::{LAYOUT, NO_ROOM};

/// The longest varint: 64 bits in groups of seven.
pub const MAX_LENGTH: usize = 10;

/// Reads the varint at the front; answers value and length. More bytes may follow.
#[inline(always)]
pub fn read(data: &[u8]) -> Result<(u64, usize), u32> {
    // Differences are mostly below 128, so one byte is the way to be quick about.
    match data.first() {
        None => Err(LAYOUT),
        Some(&byte) if byte < 0x80 => Ok((byte as u64, 1)),
        Some(_) => read_longer(data),
    }
}

/// Reads the varint at `at` and moves `at` behind it; `at` may be the end.
#[inline(always)]
pub fn read_next(data: &[u8], at: &mut usize) -> Result<u64, u32> {
    match data.get(*at) {
        None => Err(LAYOUT),
        Some(&byte) if byte < 0x80 => {
            *at += 1;
            Ok(byte as u64)
        }
        Some(_) => {
            let (value, length) = read_longer(&data[*at..])?;
            *at += length;
            Ok(value)
        }
    }
}

/// The varint at the front, whose first byte has its top bit set.
#[inline]
fn read_longer(data: &[u8]) -> Result<(u64, usize), u32> {
    let mut value = (data[0] & 0x7F) as u64;
    // Two bytes are common too.
    match data.get(1) {
        None | Some(0) => return Err(LAYOUT),
        Some(&second) if second < 0x80 => return Ok((value | (second as u64) << 7, 2)),
        Some(_) => (),
    }
    for (at, &byte) in data.iter().enumerate().take(MAX_LENGTH).skip(1) {
        // The tenth byte holds bit 63 alone.
        if at == MAX_LENGTH - 1 && byte > 1 {
            return Err(LAYOUT);
        }
        value |= ((byte & 0x7F) as u64) << (7 * at);
        if byte < 0x80 {
            return if byte == 0 { Err(LAYOUT) } else { Ok((value, at + 1)) };
        }
    }
    Err(LAYOUT)
}

/// The number of bytes that a value takes.
#[inline(always)]
pub fn length(value: u64) -> usize {
    // 0 takes one byte like 1 does.
    (70 - (value | 1).leading_zeros() as usize) / 7
}

/// Writes the varint to the front of the buffer; answers its length.
#[inline(always)]
pub fn write(buffer: &mut [u8], value: u64) -> Result<usize, u32> {
    if value < 0x80 {
        return match buffer.first_mut() {
            None => Err(NO_ROOM),
            Some(first) => {
                *first = value as u8;
                Ok(1)
            }
        };
    }
    let length = length(value);
    let Some(room) = buffer.get_mut(..length) else {
        return Err(NO_ROOM);
    };
    let mut rest = value;
    for byte in &mut room[..length - 1] {
        *byte = rest as u8 | 0x80;
        rest >>= 7;
    }
    room[length - 1] = rest as u8;
    Ok(length)
}

#[cfg(test)]
mod tests {
    use super::*;

    /// Document 01, section "Worked numbers".
    #[test]
    fn worked_numbers() {
        let cases: [(u64, &[u8]); 5] = [
            (0, &[0x00]),
            (127, &[0x7F]),
            (128, &[0x80, 0x01]),
            (16_384, &[0x80, 0x80, 0x01]),
            (u64::MAX, &[0xFF, 0xFF, 0xFF, 0xFF, 0xFF, 0xFF, 0xFF, 0xFF, 0xFF, 0x01]),
        ];
        for (value, bytes) in cases {
            let mut buffer = [0xA5; 12];
            assert_eq!(write(&mut buffer, value), Ok(bytes.len()));
            assert_eq!(&buffer[..bytes.len()], bytes);
            assert!(buffer[bytes.len()..].iter().all(|&b| b == 0xA5));
            assert_eq!(read(&buffer), Ok((value, bytes.len())));
            assert_eq!(write(&mut buffer[..bytes.len() - 1], value), Err(NO_ROOM));
        }
        assert_eq!(read(&[0x80, 0x00]), Err(LAYOUT));
    }

    #[test]
    fn broken_forms_are_refused() {
        let ff = [0xFFu8; 11];
        assert_eq!(read(&[]), Err(LAYOUT));
        assert_eq!(read(&ff[..9]), Err(LAYOUT));
        assert_eq!(read(&ff[..10]), Err(LAYOUT));
        assert_eq!(read(&ff), Err(LAYOUT));
        let mut tenth = [0x80u8; 10];
        for last in 0..=255 {
            tenth[9] = last;
            let wanted = if last == 1 { Ok((1 << 63, 10)) } else { Err(LAYOUT) };
            assert_eq!(read(&tenth), wanted, "tenth byte {last}");
        }
    }

    #[test]
    fn lengths_change_at_powers_of_128() {
        for bytes in 1..10usize {
            let first_longer = 1u64 << (7 * bytes);
            assert_eq!(length(first_longer - 1), bytes);
            assert_eq!(length(first_longer), bytes + 1);
        }
        assert_eq!((length(0), length(u64::MAX)), (1, 10));
    }
}
