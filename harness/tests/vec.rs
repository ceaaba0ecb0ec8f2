//! Compares the library with the reference on VEC_SEG payloads: the check in its
//! order, and the one-block writer.

use rvf_harness::calls::{Calls, Reference, VecInput};
use rvf_harness::ffi::Library;
use rvf_harness::gen::payloads::{self, Draft, DraftBlock};
use rvf_harness::gen::{maps, Rng};
use rvf_harness::runner;
use rvf_harness::vectors::hex;

#[track_caller]
fn same_check(payload: &[u8]) -> u32 {
    let (ours, theirs) = (Library.vec_check(payload), Reference.vec_check(payload));
    assert_eq!(ours, theirs, "vec_check of {}", hex(payload));
    ours
}

#[track_caller]
fn same_write(room: usize, input: &VecInput) {
    let (ours, theirs) = (runner::vec_write(&Library, room, input), runner::vec_write(&Reference, room, input));
    assert!(ours == theirs && ours.fault.is_none(), "vec_write of {input:?} in {room} bytes:\n library   {ours:?}\n reference {theirs:?}");
}

fn draft_of(blocks: Vec<DraftBlock>) -> Draft {
    Draft { blocks, count: None, fill: None, tail: Vec::new(), cut: None }
}

/// Valid payloads and such with up to four faults.
#[test]
fn payloads_with_faults() {
    let mut rng = Rng::new(201);
    let mut seen = [0usize; 8];
    for _ in 0..200_000 {
        let payload = payloads::payload(&mut rng);
        seen[same_check(&payload) as usize] += 1;
    }
    // All four answers must have occurred often, or the cases show nothing.
    assert!([0, 5, 6, 7].iter().all(|&number| seen[number] > 5_000), "{seen:?}");
}

/// Two valid blocks, each bit flipped in turn, each length in turn.
#[test]
fn payloads_with_every_bit_flipped() {
    let mut rng = Rng::new(202);
    for _ in 0..6 {
        let blocks = vec![payloads::block(&mut rng, true), payloads::block(&mut rng, false)];
        let payload = draft_of(blocks).bytes();
        if payload.len() > 1_500 {
            continue;
        }
        for bit in 0..8 * payload.len() {
            let mut broken = payload.clone();
            broken[bit / 8] ^= 1 << (bit % 8);
            same_check(&broken);
        }
        for length in 0..payload.len() {
            same_check(&payload[..length]);
        }
    }
}

/// Every pair of faults, one an early and one a late step of the check, in either
/// block: the pair's answer shows which of the two is looked at first.
#[test]
fn every_pair_of_faults() {
    type Fault = fn(&mut Draft, usize);
    let faults: [(&str, Fault); 14] = [
        ("count of blocks", |draft, _| draft.count = Some(65)),
        ("a line more than blocks", |draft, _| draft.count = Some(draft.blocks.len() as u32 + 1)),
        ("vector count", |draft, at| draft.blocks[at].count = 0),
        ("dim", |draft, at| draft.blocks[at].dim = 1_025),
        ("dtype", |draft, at| draft.blocks[at].dtype = 1),
        ("fill", |draft, _| draft.fill = Some((3, 1))),
        ("offset", |draft, at| draft.blocks[at].shift = 64),
        ("room for columns", |draft, at| draft.blocks[at].dim = 1_024),
        ("map", |draft, at| draft.blocks[at].map[1] ^= 0x80),
        ("count in the map", |draft, at| draft.blocks[at].map[3] ^= 1),
        ("crc", |draft, at| draft.blocks[at].crc_flip = 1 << 31),
        ("padding", |draft, at| draft.blocks[at].padding = Some((0, 1))),
        ("end", |draft, _| draft.tail = vec![0; 64]),
        ("crc absent", |draft, _| draft.cut = Some(draft.bytes().len() - 64)),
    ];
    let mut rng = Rng::new(203);
    for _ in 0..40 {
        let valid = draft_of(vec![payloads::block(&mut rng, true), payloads::block(&mut rng, true)]);
        for (_, first) in &faults {
            for (_, second) in &faults {
                for places in 0..4 {
                    let mut draft = valid.clone();
                    first(&mut draft, places & 1);
                    second(&mut draft, places >> 1);
                    same_check(&draft.bytes());
                }
            }
        }
    }
}

/// The bounds: 64 and 65 blocks, 4,096 and 4,097 vectors, dim 1,024 and 1,025.
#[test]
fn payloads_at_the_bounds() {
    let mut rng = Rng::new(204);
    for count in [0, 1, 63, 64, 65, 66] {
        let blocks = (0..count).map(|_| payloads::block(&mut rng, true)).collect();
        let draft = draft_of(blocks);
        let accepted = same_check(&draft.bytes()) == 0;
        assert_eq!(accepted, count <= 64, "{count} blocks");
    }
    let shapes = [(4_096, 1, 0), (4_096, 3, 4), (1, 1_024, 0), (2, 1_024, 3), (4_096, 64, 0)];
    let too_large = [(4_097, 1, 3), (4_097, 2, 0), (1, 1_025, 4), (3, 1_025, 0), (4_098, 1, 4)];
    for (count, dim, dtype) in shapes.into_iter().chain(too_large) {
        let ids = maps::ids(&mut rng, count);
        let block = payloads::block_of(&mut rng, &ids, dim, dtype);
        let mut draft = draft_of(vec![block]);
        let wanted = if count <= 4_096 && dim <= 1_024 { 0 } else { 5 };
        assert_eq!(same_check(&draft.bytes()), wanted, "{count} vectors of dim {dim}");
        draft.blocks[0].count += 1;
        same_check(&draft.bytes());
        draft.blocks[0].count -= 1;
        draft.blocks[0].dim += 1;
        same_check(&draft.bytes());
    }
}

/// The writer: right and wrong input, rooms around the length.
#[test]
fn payloads_written() {
    let mut rng = Rng::new(205);
    let mut seen = [0usize; 15];
    for _ in 0..60_000 {
        let input = payloads::input(&mut rng);
        let full = 64 + input.columns.len() + 9 * input.ids.len() + 4 * input.ids.len() + 200;
        let fitting = runner::vec_write(&Reference, full, &input);
        seen[fitting.number as usize] += 1;
        let length = fitting.written.len();
        let room = match rng.below(5) {
            0 => rng.below(130),
            1 => length.saturating_sub(1),
            2 => length + rng.range(1, 70),
            _ => length,
        };
        same_write(room, &input);
    }
    assert!(seen[0] > 10_000 && seen[14] > 10_000, "{seen:?}");
}

/// Every single field wrong in turn, with every room: 14 comes before 9.
#[test]
fn wrong_input_comes_before_room() {
    let right = VecInput {
        ids: vec![4, 9, 1_000],
        columns: vec![1; 24],
        dim: 2,
        dtype: 0,
        tier: 200,
        encoding: 1,
        interval: 2,
    };
    let length = runner::vec_write(&Reference, 1_000, &right).written.len();
    let changes: [fn(&mut VecInput); 16] = [
        |_| (),
        |input| input.dim = 0,
        |input| input.dim = 1_025,
        |input| input.dim = 65_538,
        |input| input.dtype = 2,
        |input| input.dtype = 256,
        |input| input.tier = 256,
        |input| input.encoding = 2,
        |input| input.encoding = 0,
        |input| input.interval = 65_536,
        |input| input.columns.truncate(23),
        |input| input.columns.push(0),
        |input| input.ids.clear(),
        |input| input.ids[1] = 4,
        |input| input.ids[2] = 0,
        |input| input.dim = (1 << 62) + 2,
    ];
    for (index, change) in changes.iter().enumerate() {
        let mut input = right.clone();
        change(&mut input);
        for room in [0, 1, 63, 64, length - 1, length, length + 1, 1_000] {
            same_write(room, &input);
            let number = runner::vec_write(&Library, room, &input).number;
            let wanted = if index > 0 { 14 } else if room < length { 9 } else { 0 };
            assert_eq!(number, wanted, "change {index}, room {room}");
        }
    }
}

/// Every id of a payload and its neighbours, in rooms that are exactly long enough, one short and more; damaged payloads too.
#[test]
fn vectors_by_id() {
    let mut rng = Rng::new(207);
    let mut seen = [0usize; 10];
    for _ in 0..20_000 {
        let payload = payloads::payload(&mut rng);
        for _ in 0..4 {
            // Ids that stand somewhere in the bytes are likelier to be in a map.
            let at = rng.below(payload.len() + 1);
            let mut eight = [0; 8];
            let held = payload.len().saturating_sub(at).min(8);
            eight[..held].copy_from_slice(&payload[at..at + held]);
            let wide = u64::from_le_bytes(eight);
            let id = [wide, wide & 0xFF, wide & 0x7F, wide % 1_000][rng.below(4)];
            let room = rng.below(300);
            let (ours, theirs) = (runner::vec_read(&Library, &payload, id, room), runner::vec_read(&Reference, &payload, id, room));
            assert!(ours == theirs && ours.fault.is_none(), "vec_read of {id} in {}:\n library   {ours:?}\n reference {theirs:?}", hex(&payload));
            seen[theirs.number as usize] += 1;
        }
    }
    for _ in 0..3_000 {
        let draft = draft_of((0..1 + rng.below(3)).map(|_| payloads::block(&mut rng, true)).collect());
        let payload = draft.bytes();
        if Reference.vec_check(&payload) != 0 {
            continue;
        }
        for block in &draft.blocks {
            let mut ids = vec![0; block.count as usize];
            assert_eq!(Reference.idmap_read(&block.map, block.count as u64, &mut ids, &mut [0]), 0);
            for &id in ids.iter().take(12) {
                let exact = runner::vec_read(&Reference, &payload, id, 8_192);
                let length = exact.written.len();
                for (id, room) in [(id, length), (id, length.saturating_sub(1)), (id, length + 3), (id ^ 1, length)] {
                    let (ours, theirs) = (runner::vec_read(&Library, &payload, id, room), runner::vec_read(&Reference, &payload, id, room));
                    assert!(ours == theirs && ours.fault.is_none(), "vec_read of {id} in {}:\n library   {ours:?}\n reference {theirs:?}", hex(&payload));
                    seen[theirs.number as usize] += 1;
                }
            }
        }
    }
    assert!([0, 5, 6, 7, 8, 9].iter().all(|&number| seen[number] > 500), "{seen:?}");
}
