//! CRC32C by sparse multiples of the polynomial, the best way that is known here without a CRC
//! instruction: a byte of the message is taken away and added at the other places of the multiple,
//! by loops of exclusive ors that the compiler makes vector instructions of. The benchmark's second
//! peer; checked against the bitwise form.

use super::crc;

/// A multiple of the polynomial, its places in bytes: the farthest is the window's length.
struct Multiple<const N: usize> {
    reach: usize,
    inner: [usize; N],
}

const NEAR: Multiple<4> = Multiple { reach: 299, inner: [142, 134, 62, 21] };
const FAR: Multiple<2> = Multiple { reach: 5_275, inner: [4_508, 2_751] };

/// Bytes that go into a window before it is brought to the front again.
const PART: usize = 8_192;

/// Takes a part in behind the window at the front.
#[inline(always)]
fn run<const N: usize>(multiple: &Multiple<N>, window: &mut [u8], part: &[u8]) {
    let n = part.len();
    let window = &mut window[..n + multiple.reach];
    // Lengths that the compiler can see: then it tests no index, and knows how far apart the places are.
    if let Ok(part) = <&[u8; PART]>::try_from(part) {
        return (0..PART).for_each(|i| step(multiple, window, part, i));
    }
    (0..n).for_each(|i| step(multiple, window, part, i));
}

/// One byte of a part.
#[inline(always)]
fn step<const N: usize>(multiple: &Multiple<N>, window: &mut [u8], part: &[u8], i: usize) {
    let mut byte = part[i] ^ window[i];
    for place in multiple.inner {
        byte ^= window[i + place];
    }
    window[i + multiple.reach] = byte;
}

/// Takes all of the data into the window, whose first four bytes are the register, and leaves in
/// `message` as many bytes with the same register.
#[inline(always)]
fn fold<const N: usize>(multiple: &Multiple<N>, window: &mut [u8], data: &[u8], message: &mut [u8]) {
    let mut parts = data.chunks(PART).peekable();
    let mut end = 0;
    while let Some(part) = parts.next() {
        run(multiple, window, part);
        end = part.len();
        if parts.peek().is_some() {
            window.copy_within(PART..PART + multiple.reach, 0);
        }
    }
    let window = &window[end..end + multiple.reach];
    message.copy_from_slice(window);
    for place in multiple.inner {
        for (byte, add) in message[multiple.reach - place..].iter_mut().zip(window) {
            *byte ^= add;
        }
    }
}

/// A message, as long as the window, with the register that the data leave. `ROOM` is the window and a part.
#[inline(always)]
fn message<const N: usize, const REACH: usize, const ROOM: usize>(
    multiple: &Multiple<N>,
    register: u32,
    data: &[u8],
) -> [u8; REACH] {
    let mut window = [0u8; ROOM];
    window[..4].copy_from_slice(&register.to_le_bytes());
    let mut message = [0u8; REACH];
    fold(multiple, &mut window, data, &mut message);
    message
}

#[inline(never)]
fn near(register: u32, data: &[u8]) -> u32 {
    crc::sliced(0, &message::<4, { NEAR.reach }, { PART + NEAR.reach }>(&NEAR, register, data))
}

#[inline(never)]
fn far(register: u32, data: &[u8]) -> u32 {
    near(0, &message::<2, { FAR.reach }, { PART + FAR.reach }>(&FAR, register, data))
}

/// The checksum of all the bytes.
pub fn crc32c(data: &[u8]) -> u32 {
    !match data.len() {
        0..768 => crc::sliced(!0, data),
        768..32_768 => near(!0, data),
        _ => far(!0, data),
    }
}

#[cfg(test)]
mod tests {
    use super::*;
    use crate::gen::Rng;

    #[test]
    fn it_agrees_with_the_bitwise_form() {
        let data = Rng::new(12).bytes(120_000);
        let lengths = (0..1_400).chain((1_400..9_000).step_by(97)).chain((32_700..33_000).step_by(7));
        for length in lengths.chain([8_191, 8_192, 8_193, 16_384, 16_385, 40_960, 40_961, 119_983]) {
            let part = &data[17..17 + length];
            assert_eq!(crc32c(part), crc::crc32c_bitwise(part), "{length} bytes");
        }
    }
}
