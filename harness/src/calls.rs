//! The exported calls as one trait, in the shape that the C header gives them: the
//! answer is a number, 0 or the refusal, and values go to `out`. The library and the
//! reference both have this shape, so every comparison is written once.

use crate::reference::{append, compact, crc, idmap, lister, manifest, refusal, store, varint, vecseg};

/// The layers in the order in which the library gets them.
#[derive(Clone, Copy, Debug, PartialEq, Eq, PartialOrd, Ord)]
pub enum Layer {
    /// Checksum, varints, id maps.
    Leaves,
    /// The check and the writer of VEC_SEG payloads.
    Vec,
    /// Opening and the directory.
    Open,
    /// Payload, vector and component by id.
    Reading,
    Append,
    /// The lister's text.
    List,
    /// A fresh file of the live segments.
    Compact,
}

/// What a call that the implementation lacks would answer; no comparison makes it.
fn absent() -> u32 {
    unreachable!("a comparison made a call that is not linked")
}

/// Everything that the vector writer is given.
#[derive(Clone, Debug)]
pub struct VecInput {
    pub ids: Vec<u64>,
    pub columns: Vec<u8>,
    pub dim: u64,
    pub dtype: u64,
    pub tier: u64,
    pub encoding: u64,
    pub interval: u64,
}

/// The calls. Those of later layers answer nothing where they are absent.
#[allow(unused_variables)]
pub trait Calls {
    fn name(&self) -> &'static str;
    fn has(&self, layer: Layer) -> bool;

    fn crc32c(&self, data: &[u8]) -> u32;
    fn varint_read(&self, data: &[u8], out: &mut [u64; 2]) -> u32;
    fn varint_write(&self, buffer: &mut [u8], value: u64, out: &mut [u64; 1]) -> u32;
    fn idmap_read(&self, data: &[u8], count: u64, ids: &mut [u64], out: &mut [u64; 1]) -> u32;
    fn idmap_write(&self, buffer: &mut [u8], ids: &[u64], encoding: u64, interval: u64, out: &mut [u64; 1]) -> u32;

    fn vec_check(&self, payload: &[u8]) -> u32 {
        absent()
    }
    fn vec_write(&self, buffer: &mut [u8], input: &VecInput, out: &mut [u64; 1]) -> u32 {
        absent()
    }
    /// A vector by its id out of a payload alone: dim, dtype, length.
    fn vec_read(&self, payload: &[u8], id: u64, buffer: &mut [u8], out: &mut [u64; 3]) -> u32 {
        absent()
    }
    fn open(&self, file: &[u8], out: &mut [u64; 5]) -> u32 {
        absent()
    }
    fn entry(&self, file: &[u8], index: u64, out: &mut [u64; 8]) -> u32 {
        absent()
    }
    fn payload(&self, file: &[u8], id: u64, out: &mut [u64; 2]) -> u32 {
        absent()
    }
    fn vector(&self, file: &[u8], id: u64, buffer: &mut [u8], out: &mut [u64; 3]) -> u32 {
        absent()
    }
    fn component(&self, file: &[u8], id: u64, index: u64, out: &mut [u64; 2]) -> u32 {
        absent()
    }
    fn append(&self, buffer: &mut [u8], n: u64, batch: &[u8], retire: &[u64], time: u64, out: &mut [u64; 3]) -> u32 {
        absent()
    }
    fn list(&self, file: &[u8], buffer: &mut [u8], out: &mut [u64; 1]) -> u32 {
        absent()
    }
    fn compact(&self, file: &[u8], buffer: &mut [u8], out: &mut [u64; 3]) -> u32 {
        absent()
    }
}

/// Puts an accepted answer into `out`; a refusal leaves it alone.
#[inline(always)]
fn put<const K: usize>(answer: Result<[u64; K], u32>, out: &mut [u64; K]) -> u32 {
    match answer {
        Ok(values) => {
            *out = values;
            0
        }
        Err(number) => number,
    }
}

/// The reference implementation behind the exported shape.
pub struct Reference;

impl Calls for Reference {
    fn name(&self) -> &'static str {
        "reference"
    }

    fn has(&self, _: Layer) -> bool {
        true
    }

    fn crc32c(&self, data: &[u8]) -> u32 {
        crc::crc32c(data)
    }

    fn varint_read(&self, data: &[u8], out: &mut [u64; 2]) -> u32 {
        put(varint::read(data).map(|(value, length)| [value, length as u64]), out)
    }

    fn varint_write(&self, buffer: &mut [u8], value: u64, out: &mut [u64; 1]) -> u32 {
        put(varint::write(buffer, value).map(|length| [length as u64]), out)
    }

    fn idmap_read(&self, data: &[u8], count: u64, ids: &mut [u64], out: &mut [u64; 1]) -> u32 {
        put(idmap::read(data, count, ids).map(|length| [length as u64]), out)
    }

    fn idmap_write(&self, buffer: &mut [u8], ids: &[u64], encoding: u64, interval: u64, out: &mut [u64; 1]) -> u32 {
        put(idmap::write(buffer, ids, encoding, interval).map(|length| [length as u64]), out)
    }

    fn vec_check(&self, payload: &[u8]) -> u32 {
        vecseg::check(payload).err().unwrap_or(0)
    }

    fn vec_read(&self, payload: &[u8], id: u64, buffer: &mut [u8], out: &mut [u64; 3]) -> u32 {
        let found = vecseg::check(payload).and_then(|()| vecseg::find(payload, id).ok_or(refusal::NO_VECTOR));
        let values = found.and_then(|place| {
            let length = vecseg::vector(payload, place, buffer)?;
            Ok([place.line.dim as u64, place.line.dtype as u64, length as u64])
        });
        put(values, out)
    }

    fn vec_write(&self, buffer: &mut [u8], input: &VecInput, out: &mut [u64; 1]) -> u32 {
        let VecInput { ids, columns, dim, dtype, tier, encoding, interval } = input;
        let answer = vecseg::write(buffer, ids, columns, *dim, *dtype, *tier, *encoding, *interval);
        put(answer.map(|length| [length as u64]), out)
    }

    fn open(&self, file: &[u8], out: &mut [u64; 5]) -> u32 {
        let answer = manifest::open(file);
        // Opening's 2 is the one refusal that answers something: the boundaries tried.
        if answer == Err(refusal::NO_MANIFEST) {
            out[4] = manifest::tried_without(file) as u64;
        }
        let values = answer
            .map(|opened| [opened.offset as u64, opened.end as u64, opened.id, opened.count as u64, opened.tried as u64]);
        put(values, out)
    }

    fn entry(&self, file: &[u8], index: u64, out: &mut [u64; 8]) -> u32 {
        let values = manifest::entry(file, index).map(|entry| {
            let (low, high) = entry.hash.split_at(8);
            let number = |half: &[u8]| u64::from_le_bytes(half.try_into().unwrap());
            let rest = [entry.kind as u64, entry.state as u64, entry.flags as u64];
            [entry.offset, entry.id, entry.length, number(low), number(high), rest[0], rest[1], rest[2]]
        });
        put(values, out)
    }

    fn payload(&self, file: &[u8], id: u64, out: &mut [u64; 2]) -> u32 {
        put(store::payload(file, id).map(|(start, length)| [start as u64, length as u64]), out)
    }

    fn vector(&self, file: &[u8], id: u64, buffer: &mut [u8], out: &mut [u64; 3]) -> u32 {
        let answer = store::vector(file, id, buffer);
        put(answer.map(|(dim, dtype, length)| [dim as u64, dtype as u64, length as u64]), out)
    }

    fn component(&self, file: &[u8], id: u64, index: u64, out: &mut [u64; 2]) -> u32 {
        put(store::component(file, id, index).map(|(dtype, bits)| [dtype as u64, bits as u64]), out)
    }

    fn append(&self, buffer: &mut [u8], n: u64, batch: &[u8], retire: &[u64], time: u64, out: &mut [u64; 3]) -> u32 {
        let answer = append::append(buffer, n, batch, retire, time);
        put(answer.map(|(end, id, count)| [end as u64, id, count as u64]), out)
    }

    fn list(&self, file: &[u8], buffer: &mut [u8], out: &mut [u64; 1]) -> u32 {
        let text = lister::list(file);
        let front = buffer.get_mut(..text.len()).ok_or(refusal::NO_ROOM);
        put(front.map(|front| front.copy_from_slice(text.as_bytes())).map(|()| [text.len() as u64]), out)
    }

    fn compact(&self, file: &[u8], buffer: &mut [u8], out: &mut [u64; 3]) -> u32 {
        put(compact::compact(file, buffer).map(|(end, id, count)| [end as u64, id, count as u64]), out)
    }
}

#[cfg(test)]
mod tests {
    use super::*;

    #[test]
    fn a_refusal_leaves_out_alone_but_for_openings_2() {
        let mut out = [7; 5];
        assert_eq!(Reference.open(&[0; 130], &mut out), 2);
        assert_eq!(out, [7, 7, 7, 7, 2]);
        let mut out = [7; 8];
        assert_eq!(Reference.entry(&[0; 130], 0, &mut out), 2);
        assert_eq!(out, [7; 8]);
    }
}
