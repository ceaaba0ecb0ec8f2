//! Id maps for the comparisons: valid ones by the reference's writer, and broken ones
//! whose parts are put together by hand, so that a fault stands alone (a difference of
//! 0 with right restart offsets, an overlong varint with the next offsets moved, ...).

use super::Rng;
use crate::reference::{idmap, varint};

/// Bytes that are offered as a map, and the vector count they are read with.
#[derive(Clone, Debug)]
pub struct MapCase {
    pub data: Vec<u8>,
    pub count: u64,
}

/// The restart intervals that have an edge of their own.
pub fn intervals(count: usize) -> [u64; 9] {
    let count = count as u64;
    [0, 1, 2, 3, 64, count, count + 1, 65_535, count.saturating_sub(1)]
}

/// The shortest varint of a value.
pub fn varint_bytes(value: u64) -> Vec<u8> {
    let mut bytes = [0; varint::MAX_LENGTH];
    let length = varint::write(&mut bytes, value).expect("ten bytes hold every value");
    bytes[..length].to_vec()
}

/// A varint of the same value that is a byte longer than it need be.
pub fn overlong(value: u64) -> Vec<u8> {
    let mut bytes = varint_bytes(value);
    *bytes.last_mut().expect("at least one byte") |= 0x80;
    bytes.push(0);
    bytes
}

/// A map by the reference's writer.
pub fn valid(ids: &[u64], encoding: u64, interval: u64) -> Vec<u8> {
    let plan = idmap::plan(ids, encoding, interval).expect("the input is allowed");
    let mut map = vec![0; plan.length];
    idmap::fill(&mut map, ids, plan);
    map
}

/// A map of any number of ids, also more than a block may have, and with any interval
/// from 1 for delta (0 is raw).
pub fn of_any_count(ids: &[u64], interval: u16) -> Vec<u8> {
    if interval > 0 {
        let parts: Vec<Vec<u8>> = numbers(ids, interval as usize).into_iter().map(varint_bytes).collect();
        return assemble(ids.len() as u32, interval, &parts);
    }
    let mut map = vec![0; 3];
    map.extend_from_slice(&(ids.len() as u32).to_le_bytes());
    map.extend(ids.iter().flat_map(|id| id.to_le_bytes()));
    map
}

/// A delta map from parts: one byte string an id, restart offsets as they fall.
fn assemble(count: u32, interval: u16, numbers: &[Vec<u8>]) -> Vec<u8> {
    let mut map = vec![1];
    map.extend_from_slice(&interval.to_le_bytes());
    map.extend_from_slice(&count.to_le_bytes());
    let mut at = 0u32;
    for group in numbers.chunks(interval.max(1) as usize) {
        map.extend_from_slice(&at.to_le_bytes());
        at += group.iter().map(Vec::len).sum::<usize>() as u32;
    }
    map.extend(numbers.iter().flatten());
    map
}

/// The numbers that stand in a delta map of these ids.
fn numbers(ids: &[u64], interval: usize) -> Vec<u64> {
    let difference = |(index, id): (usize, &u64)| if index % interval == 0 { *id } else { id - ids[index - 1] };
    ids.iter().enumerate().map(difference).collect()
}

/// A count, mostly small.
fn count(rng: &mut Rng) -> usize {
    match rng.below(60) {
        0 => rng.range(1_000, 4_096),
        1 | 2 => rng.range(64, 300),
        3..=6 => rng.pick(&[1, 2, 3, 63, 64, 65]),
        _ => rng.range(1, 24),
    }
}

/// Ids for a map; every size of step, the top of the range included.
pub fn ids(rng: &mut Rng, count: usize) -> Vec<u64> {
    let step_bits = rng.pick(&[0, 1, 5, 7, 8, 14, 20, 40, 56]);
    let from = match rng.below(4) {
        0 => 0,
        1 => rng.value().min(u64::MAX - count as u64),
        2 => u64::MAX - rng.range(count, 2 * count + 300) as u64,
        _ => rng.below(100_000) as u64,
    };
    rng.rising(count, from, step_bits)
}

/// A case: one in four is valid (perhaps with bytes behind it), the others have one
/// fault of a chosen kind, some a second one of a random kind.
pub fn case(rng: &mut Rng) -> MapCase {
    let count = count(rng);
    let ids = ids(rng, count);
    let mut case = MapCase { data: Vec::new(), count: count as u64 };
    if rng.once_in(3) {
        case.data = valid(&ids, 0, 0);
        spoil_raw(rng, &mut case, &ids);
    } else {
        let interval = match rng.below(3) {
            0 => rng.pick(&intervals(count)).clamp(1, 65_535),
            1 => rng.range(1, 8) as u64,
            _ => rng.range(1, 2 * count + 2) as u64,
        };
        case.data = valid(&ids, 1, interval);
        spoil_delta(rng, &mut case, &ids, interval as usize);
    }
    if rng.once_in(10) {
        super::damage(rng, &mut case.data);
    }
    if rng.once_in(3) {
        let more = rng.range(1, 20);
        case.data.extend(rng.bytes(more));
    }
    case
}

/// A fault that both encodings can have, by its number.
fn spoil_any(rng: &mut Rng, case: &mut MapCase, fault: usize) {
    match fault {
        0 => super::damage(rng, &mut case.data),
        1 => case.count = rng.pick(&[0, case.count + 1, case.count - 1, 4_097, 1 << 32, u64::MAX, case.count | 1 << 32]),
        2 => {
            // A wrong count in the map itself, and sometimes the same count outside.
            let wrong = rng.pick(&[0, 4_097, case.count as u32 + 1, case.count as u32 - 1, u32::MAX]);
            case.data[3..7].copy_from_slice(&wrong.to_le_bytes());
            if rng.once_in(2) {
                case.count = wrong as u64;
            }
        }
        3 => {
            let cut = rng.below(case.data.len());
            case.data.truncate(cut);
        }
        4 => {
            let cut = case.data.len() - 1;
            case.data.truncate(cut);
        }
        5 => case.data[0] = rng.pick(&[0, 1, 2, 3, 128, 255]),
        _ => case.data[1 + rng.below(2)] ^= 1 << rng.below(8),
    }
}

fn spoil_raw(rng: &mut Rng, case: &mut MapCase, ids: &[u64]) {
    let fault = rng.below(14);
    if fault < 7 {
        spoil_any(rng, case, fault);
    } else if fault < 11 && ids.len() > 1 {
        // Two neighbours equal, or in the wrong order.
        let at = rng.range(1, ids.len() - 1);
        let wrong = if fault == 7 { ids[at - 1] } else { ids[at - 1].saturating_sub(rng.below(3) as u64) };
        case.data[7 + 8 * at..][..8].copy_from_slice(&wrong.to_le_bytes());
    }
}

fn spoil_delta(rng: &mut Rng, case: &mut MapCase, ids: &[u64], interval: usize) {
    let fault = rng.below(18);
    let at = rng.below(ids.len());
    let mut parts: Vec<Vec<u8>> = numbers(ids, interval).into_iter().map(varint_bytes).collect();
    match fault {
        0..=6 => return spoil_any(rng, case, fault),
        7 => {
            // A restart offset that is off by one, or by a carry.
            let group = rng.below(ids.len().div_ceil(interval));
            let offset = &mut case.data[7 + 4 * group..][..4];
            let value = u32::from_le_bytes((&*offset).try_into().unwrap());
            offset.copy_from_slice(&value.wrapping_add(rng.pick(&[1, u32::MAX, 256, 1 << 24])).to_le_bytes());
            return;
        }
        8 => parts[at] = overlong(numbers(ids, interval)[at]),
        9 => parts[at] = vec![0],
        10 => parts[at] = varint_bytes(rng.value()),
        11 => parts[at] = varint_bytes(u64::MAX - rng.below(3) as u64),
        12 => {
            // The first of a group at or below the id before it.
            let group = at / interval * interval;
            if group > 0 {
                parts[group] = varint_bytes(ids[group - 1].saturating_sub(rng.below(2) as u64));
            }
        }
        13 => {
            // Eleven bytes, or a tenth byte that is not 01.
            parts[at] = vec![0xFF; 9];
            parts[at].extend_from_slice(rng.pick(&[&[0x02][..], &[0x81, 0x00], &[0xFF, 0x01], &[0x7F], &[0x00]]));
        }
        14 => {
            // The difference carried across the restart, as if there were none.
            let group = at / interval * interval;
            if group > 0 {
                parts[group] = varint_bytes(ids[group] - ids[group - 1]);
            }
        }
        15 if ids.len() > 1 => {
            // One number past the last id that fits: the sum goes above the top.
            let last = ids.len() - 1;
            if last % interval != 0 {
                parts[last] = varint_bytes((u64::MAX - ids[last - 1]).saturating_add(rng.below(2) as u64));
            }
        }
        _ => return,
    }
    case.data = assemble(ids.len() as u32, interval as u16, &parts);
}

#[cfg(test)]
mod tests {
    use super::*;

    #[test]
    fn parts_make_what_the_writer_makes() {
        let mut rng = Rng::new(5);
        for _ in 0..500 {
            let count = count(&mut rng);
            let ids = ids(&mut rng, count);
            let interval = rng.range(1, 70);
            assert_eq!(of_any_count(&ids, interval as u16), valid(&ids, 1, interval as u64));
            assert_eq!(of_any_count(&ids, 0), valid(&ids, 0, 0));
        }
    }

    #[test]
    fn cases_are_accepted_and_refused_in_fair_parts() {
        let mut rng = Rng::new(6);
        let mut buffer = vec![0; 4_096];
        let accepted = (0..4_000).filter(|_| {
            let case = case(&mut rng);
            idmap::read(&case.data, case.count, &mut buffer).is_ok()
        });
        let accepted = accepted.count();
        assert!((800..3_200).contains(&accepted), "{accepted} of 4000 accepted");
    }
}
