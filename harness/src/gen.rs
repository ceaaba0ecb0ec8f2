//! Generators of test cases. All randomness is a xorshift generator with a fixed
//! seed, so a failing case comes back in every run.

pub mod batches;
pub mod builder;
pub mod files;
pub mod maps;
pub mod payloads;
pub mod stores;

/// The xorshift64* generator.
#[derive(Clone)]
pub struct Rng(u64);

impl Rng {
    pub fn new(seed: u64) -> Rng {
        let mut rng = Rng(seed.wrapping_mul(0x9E37_79B9_7F4A_7C15) | 1);
        rng.next();
        rng
    }

    #[allow(clippy::should_implement_trait)]
    pub fn next(&mut self) -> u64 {
        self.0 ^= self.0 >> 12;
        self.0 ^= self.0 << 25;
        self.0 ^= self.0 >> 27;
        self.0.wrapping_mul(0x2545_F491_4F6C_DD1D)
    }

    /// A number below `bound`, which is above 0.
    pub fn below(&mut self, bound: usize) -> usize {
        ((self.next() >> 32) * bound as u64 >> 32) as usize
    }

    /// A number from `low` to `high`, both included.
    pub fn range(&mut self, low: usize, high: usize) -> usize {
        low + self.below(high - low + 1)
    }

    /// True once in `n` times.
    pub fn once_in(&mut self, n: usize) -> bool {
        self.below(n) == 0
    }

    pub fn pick<T: Copy>(&mut self, from: &[T]) -> T {
        from[self.below(from.len())]
    }

    pub fn bytes(&mut self, length: usize) -> Vec<u8> {
        let mut bytes = Vec::with_capacity(length + 8);
        while bytes.len() < length {
            bytes.extend_from_slice(&self.next().to_le_bytes());
        }
        bytes.truncate(length);
        bytes
    }

    /// A number whose bit length is as likely one as another, often near its ends.
    pub fn value(&mut self) -> u64 {
        let bits = self.below(65) as u32;
        let top = if bits == 64 { u64::MAX } else { (1u64 << bits) - 1 };
        match self.below(8) {
            0 => top,
            1 => top.wrapping_add(1),
            2 => top.wrapping_sub(1),
            _ => self.next() & top,
        }
    }

    /// `count` ids that rise strictly, with steps of about `2^step_bits`; `from` is the
    /// least first id. Near the top the steps become as small as they must.
    pub fn rising(&mut self, count: usize, from: u64, step_bits: u32) -> Vec<u64> {
        let mut ids = Vec::with_capacity(count);
        let mut id = from;
        for left in (0..count as u64).rev() {
            let room = u64::MAX - left - id;
            let step = self.next() & if step_bits >= 64 { u64::MAX } else { (1 << step_bits) - 1 };
            id += if step > room { room.min(1) } else { step };
            ids.push(id);
            id = id.saturating_add(1);
        }
        ids
    }
}

/// Changes a byte string in one plain way: a bit, a byte, some bytes fewer or more, a
/// run overwritten, a byte taken out or put in.
pub fn damage(rng: &mut Rng, bytes: &mut Vec<u8>) {
    if bytes.is_empty() {
        bytes.push(rng.next() as u8);
        return;
    }
    let at = rng.below(bytes.len());
    match rng.below(8) {
        0 | 1 => bytes[at] ^= 1 << rng.below(8),
        2 => bytes[at] = rng.pick(&[0, 1, 0x7F, 0x80, 0xFF]),
        3 => bytes[at] = bytes[at].wrapping_add(rng.pick(&[1, 255, 64])),
        4 => bytes.truncate(at),
        5 => {
            let more = rng.range(1, 70);
            let fill = rng.pick(&[0, 0, 0x80, 0xFF]);
            bytes.resize(bytes.len() + more, fill);
        }
        6 => {
            bytes.remove(at);
        }
        _ => bytes.insert(at, rng.pick(&[0, 1, 0x80])),
    }
}

/// A batch from its bodies: type, flags and bytes of each, in order.
pub fn batch_of(bodies: &[(u8, u16, &[u8])]) -> Vec<u8> {
    let mut batch = vec![0; 16 + 16 * bodies.len()];
    batch[..4].copy_from_slice(&(bodies.len() as u32).to_le_bytes());
    for (index, (kind, flags, bytes)) in bodies.iter().enumerate() {
        let offset = batch.len() as u32;
        let line = &mut batch[16 + 16 * index..][..16];
        line[0] = *kind;
        line[2..4].copy_from_slice(&flags.to_le_bytes());
        line[4..8].copy_from_slice(&offset.to_le_bytes());
        line[8..12].copy_from_slice(&(bytes.len() as u32).to_le_bytes());
        batch.extend_from_slice(bytes);
    }
    batch
}

#[cfg(test)]
mod tests {
    use super::*;

    #[test]
    fn rising_ids_rise_even_at_the_top() {
        let mut rng = Rng::new(3);
        for count in [1, 2, 64, 4_096] {
            for step_bits in [0, 3, 20, 63, 64] {
                for from in [0, 1 << 40, u64::MAX - count as u64 + 1] {
                    let ids = rng.rising(count, from, step_bits);
                    assert!(ids.windows(2).all(|pair| pair[0] < pair[1]), "{count} {step_bits} {from}");
                }
            }
        }
    }
}
