//! Id maps, document 01, sections "Vector blocks and id maps" (the form) and "The
//! batch sheet and appending" (the map's reader and writer, their order of refusals).
//!
//! Seven bytes of head (encoding u8, restart interval u16, count u32), then either
//! raw u64 ids, or one u32 offset a group of `interval` ids and the varints.

use super::refusal::{INPUT, LAYOUT, NO_ROOM};
use super::{le16, le32, le64, limits, varint};

/// Bytes before the restart offsets or the raw ids.
pub const HEAD: usize = 7;
const RAW: u8 = 0;
const DELTA: u8 = 1;

/// Reads the map at the front of `data`, which must have `count` ids; writes them to
/// the front of `ids` and answers the map's length. Every rule is 5, then room 9.
pub fn read(data: &[u8], count: u64, ids: &mut [u64]) -> Result<usize, u32> {
    if count == 0 || count > limits::VECTORS as u64 {
        return Err(LAYOUT);
    }
    let count = count as usize;
    if ids.len() < count {
        check(data, count)?;
        return Err(NO_ROOM);
    }
    if data.first() == Some(&RAW) {
        let length = check(data, count)?;
        for (id, bytes) in ids.iter_mut().zip(data[HEAD..length].chunks_exact(8)) {
            *id = u64::from_le_bytes(bytes.try_into().unwrap());
        }
        return Ok(length);
    }
    // A refusal must leave `ids` as they were, so the ids are gathered beside them.
    if count <= 128 {
        read_by_copy::<128>(data, count, ids)
    } else {
        read_by_copy::<{ limits::VECTORS }>(data, count, ids)
    }
}

fn read_by_copy<const ROOM: usize>(data: &[u8], count: usize, ids: &mut [u64]) -> Result<usize, u32> {
    let mut gathered = [0u64; ROOM];
    let mut places = gathered.iter_mut();
    let length = decode(data, count, |id| {
        if let Some(place) = places.next() {
            *place = id;
        }
    })?;
    ids[..count].copy_from_slice(&gathered[..count]);
    Ok(length)
}

/// The rules alone, for a count within its bound; answers the map's length.
pub fn check(data: &[u8], count: usize) -> Result<usize, u32> {
    decode(data, count, |_| ())
}

/// Goes through the map and hands each id to `each`, as long as no rule is broken.
#[inline(always)]
fn decode(data: &[u8], count: usize, each: impl FnMut(u64)) -> Result<usize, u32> {
    if data.len() < HEAD || le32(data, 3) as usize != count {
        return Err(LAYOUT);
    }
    match (data[0], le16(data, 1) as usize) {
        (RAW, 0) => decode_raw(data, count, each),
        (DELTA, interval) if interval > 0 => decode_delta(data, count, interval, each),
        _ => Err(LAYOUT),
    }
}

#[inline(always)]
fn decode_raw(data: &[u8], count: usize, mut each: impl FnMut(u64)) -> Result<usize, u32> {
    let length = HEAD + 8 * count;
    let Some(raw) = data.get(HEAD..length) else {
        return Err(LAYOUT);
    };
    let mut before = le64(raw, 0);
    let mut rises = true;
    each(before);
    for bytes in raw[8..].chunks_exact(8) {
        let id = u64::from_le_bytes(bytes.try_into().unwrap());
        rises &= before < id;
        before = id;
        each(id);
    }
    if rises { Ok(length) } else { Err(LAYOUT) }
}

#[inline(always)]
fn decode_delta(data: &[u8], count: usize, interval: usize, mut each: impl FnMut(u64)) -> Result<usize, u32> {
    let first = HEAD + 4 * count.div_ceil(interval);
    if data.len() < first {
        return Err(LAYOUT);
    }
    let encoded = &data[first..];
    let mut at = 0;
    let mut before = 0u64;
    let mut left = count;
    for (group, offset) in data[HEAD..first].chunks_exact(4).enumerate() {
        if u32::from_le_bytes(offset.try_into().unwrap()) as usize != at {
            return Err(LAYOUT);
        }
        // The group's first id is absolute and still above the one before it.
        let id = varint::read_next(encoded, &mut at)?;
        if group > 0 && id <= before {
            return Err(LAYOUT);
        }
        before = id;
        each(id);
        let members = left.min(interval);
        for _ in 1..members {
            let difference = varint::read_next(encoded, &mut at)?;
            match before.checked_add(difference) {
                Some(id) if difference > 0 => before = id,
                _ => return Err(LAYOUT),
            }
            each(before);
        }
        left -= members;
    }
    Ok(first + at)
}

/// The index of an id in a map that was checked. Raw ids and the first ids of groups
/// rise, so both are halved; a group is then gone through.
pub fn find(map: &[u8], count: usize, wanted: u64) -> Option<usize> {
    if map[0] == RAW {
        let (mut low, mut high) = (0, count);
        while low < high {
            let middle = (low + high) / 2;
            let id = le64(map, HEAD + 8 * middle);
            if id == wanted {
                return Some(middle);
            }
            if id < wanted {
                low = middle + 1;
            } else {
                high = middle;
            }
        }
        return None;
    }
    let interval = le16(map, 1) as usize;
    let groups = count.div_ceil(interval);
    let encoded = &map[HEAD + 4 * groups..];
    let begin = |group: usize| le32(map, HEAD + 4 * group) as usize;
    // The last group whose first id is at most the wanted one.
    let (mut low, mut high) = (0, groups);
    while low < high {
        let middle = (low + high) / 2;
        let (id, _) = varint::read(&encoded[begin(middle)..]).ok()?;
        if id <= wanted {
            low = middle + 1;
        } else {
            high = middle;
        }
    }
    let group = low.checked_sub(1)?;
    let mut at = begin(group);
    let mut id = 0;
    let first = group * interval;
    for index in first..count.min(first + interval) {
        let number = varint::read_next(encoded, &mut at).ok()?;
        id = if index == first { number } else { id + number };
        if id >= wanted {
            return (id == wanted).then_some(index);
        }
    }
    None
}

/// What a writer was asked for, once it is known to be allowed.
#[derive(Clone, Copy)]
pub struct Plan {
    interval: usize,
    /// The map's length in bytes.
    pub length: usize,
}

/// The parts of refusal 14 that concern the map, and the length it will have.
pub fn plan(ids: &[u64], encoding: u64, interval: u64) -> Result<Plan, u32> {
    let count = ids.len();
    if count == 0 || count > limits::VECTORS || encoding > DELTA as u64 || interval > u16::MAX as u64 {
        return Err(INPUT);
    }
    if !ids.iter().zip(&ids[1..]).fold(true, |rises, (a, b)| rises & (a < b)) {
        return Err(INPUT);
    }
    if encoding == RAW as u64 {
        return if interval == 0 { Ok(Plan { interval: 0, length: HEAD + 8 * count }) } else { Err(INPUT) };
    }
    let interval = if interval == 0 { limits::DEFAULT_INTERVAL } else { interval } as usize;
    let varints: usize = ids
        .chunks(interval)
        .map(|group| {
            let differences = group.windows(2).map(|pair| varint::length(pair[1] - pair[0]));
            varint::length(group[0]) + differences.sum::<usize>()
        })
        .sum();
    Ok(Plan { interval, length: HEAD + 4 * count.div_ceil(interval) + varints })
}

/// Writes the planned map; `buffer` is exactly as long as the plan says.
pub fn fill(buffer: &mut [u8], ids: &[u64], plan: Plan) {
    buffer[0] = if plan.interval == 0 { RAW } else { DELTA };
    buffer[1..3].copy_from_slice(&(plan.interval as u16).to_le_bytes());
    buffer[3..7].copy_from_slice(&(ids.len() as u32).to_le_bytes());
    if plan.interval == 0 {
        for (place, id) in buffer[HEAD..].chunks_exact_mut(8).zip(ids) {
            place.copy_from_slice(&id.to_le_bytes());
        }
        return;
    }
    let (heads, encoded) = buffer[HEAD..].split_at_mut(4 * ids.len().div_ceil(plan.interval));
    let mut at = 0;
    for (place, group) in heads.chunks_exact_mut(4).zip(ids.chunks(plan.interval)) {
        place.copy_from_slice(&(at as u32).to_le_bytes());
        let mut before = 0;
        for &id in group {
            at += varint::write(&mut encoded[at..], id - before).expect("the plan counted the room");
            before = id;
        }
    }
}

/// Writes the map of `ids` to the front of the buffer and answers its length.
pub fn write(buffer: &mut [u8], ids: &[u64], encoding: u64, interval: u64) -> Result<usize, u32> {
    let plan = plan(ids, encoding, interval)?;
    let room = buffer.get_mut(..plan.length).ok_or(NO_ROOM)?;
    fill(room, ids, plan);
    Ok(plan.length)
}

#[cfg(test)]
mod tests {
    use super::*;

    const IDS: [u64; 5] = [100, 105, 108, 120, 200];

    /// Document 01, section "Worked numbers": interval 64 and interval 2.
    #[test]
    fn worked_numbers() {
        let cases: [(u64, &[u8]); 2] = [
            (64, &[1, 64, 0, 5, 0, 0, 0, 0, 0, 0, 0, 0x64, 5, 3, 0x0C, 0x50]),
            (2, &[1, 2, 0, 5, 0, 0, 0, 0, 0, 0, 0, 2, 0, 0, 0, 4, 0, 0, 0, 0x64, 5, 0x6C, 0x0C, 0xC8, 1]),
        ];
        for (interval, bytes) in cases {
            let mut buffer = [0xA5; 40];
            assert_eq!(write(&mut buffer, &IDS, 1, interval), Ok(bytes.len()));
            assert_eq!(&buffer[..bytes.len()], bytes);
            let mut ids = [7; 6];
            assert_eq!(read(&buffer, 5, &mut ids), Ok(bytes.len()));
            assert_eq!((&ids[..5], ids[5]), (&IDS[..], 7));
            assert_eq!(read(&buffer, 5, &mut ids[..4]), Err(NO_ROOM));
            assert_eq!(read(&buffer[..bytes.len() - 1], 5, &mut ids), Err(LAYOUT));
            assert_eq!(write(&mut buffer[..bytes.len() - 1], &IDS, 1, interval), Err(NO_ROOM));
        }
    }

    #[test]
    fn find_knows_every_id_and_no_other() {
        let ids: Vec<u64> = (0..300).map(|i| i * i + 3).collect();
        for (encoding, interval) in [(0, 0), (1, 1), (1, 2), (1, 7), (1, 64), (1, 300), (1, 65_535)] {
            let mut map = vec![0; 4_000];
            write(&mut map, &ids, encoding, interval).unwrap();
            for wanted in 0..ids[299] + 3 {
                assert_eq!(find(&map, 300, wanted), ids.binary_search(&wanted).ok(), "{wanted} at interval {interval}");
            }
        }
    }
}
