//! Stores of several batches, for the tests of cuts and of flipped bits.

use super::{appended, sample};
use rvf::{Body, Dtype, Encoding, Vectors};

/// The one vector that every batch holds.
pub const ID: u64 = 7;

/// A payload with one position, which tells the batch's number.
pub fn position(number: u16) -> Vec<u8> {
    let columns: Vec<u8> = [f32::from(number), 100.0, 200.0].iter().flat_map(|value| value.to_le_bytes()).collect();
    let input = Vectors { ids: &[ID], columns: &columns, dim: 3, dtype: Dtype::F32, tier: 0, encoding: Encoding::Raw };
    rvf::vectors(&input).expect("the input is right")
}

pub fn body(kind: u8, bytes: &[u8]) -> Body<'_> {
    Body { kind, flags: 0, bytes }
}

/// A store of so many batches of one position each.
pub fn batches(count: u16) -> Vec<u8> {
    let mut buffer = vec![0; rvf::FILE_LIMIT];
    let mut length = 0;
    for number in 1..=count {
        let payload = position(number);
        let batch = rvf::batch(&[body(rvf::VEC, &payload)]);
        length = rvf::append(&mut buffer, length, &batch, &[], number.into()).expect("there is room").end as usize;
    }
    buffer.truncate(length);
    buffer
}

/// The position that a file answers, as the number of the batch that it is of.
pub fn latest(file: &[u8]) -> Option<f32> {
    match rvf::vector(file, ID).ok()?.components().next()? {
        rvf::Component::F32(value) => Some(value),
        other => panic!("{other:?}"),
    }
}

/// Six batches: positions alone, with notes whose ends are padded or not, none at all, with a
/// body that is a whole file, with one that is a whole file moved by some bytes, and with a
/// segment retired. Each file after a batch, from the empty one on.
pub fn six() -> Vec<Vec<u8>> {
    let inner = sample("clean.rvf");
    let moved = [&[0; 24][..], &inner].concat();
    let positions: Vec<Vec<u8>> = (1..=6).map(position).collect();
    let batches: [(&[Body], &[u64]); 6] = [
        (&[body(rvf::VEC, &positions[0])], &[]),
        (&[body(rvf::VEC, &positions[1]), body(7, b"second contact"), body(9, &[5; 64]), body(7, b"")], &[]),
        (&[], &[]),
        (&[body(7, &inner), body(rvf::VEC, &positions[3])], &[0]),
        (&[body(rvf::VEC, &positions[4]), body(0xF3, &moved)], &[]),
        (&[body(rvf::VEC, &positions[5])], &[2, 3]),
    ];
    let mut files = vec![Vec::new()];
    for (time, (bodies, retire)) in batches.into_iter().enumerate() {
        let last = files.last().expect("there is a first");
        files.push(appended(last, &rvf::batch(bodies), retire, time as u64).expect("accepted"));
    }
    files
}
