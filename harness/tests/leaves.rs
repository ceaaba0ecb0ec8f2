//! Compares the library with the reference on the lowest layer: CRC32C, varints, id
//! maps. Every call runs with guarded buffers; a failing case prints its input.

use rvf_harness::calls::{Calls, Reference};
use rvf_harness::ffi::Library;
use rvf_harness::gen::{damage, maps, Rng};
use rvf_harness::reference::{crc, limits, varint};
use rvf_harness::runner;

#[track_caller]
fn same_varint_read(data: &[u8]) {
    let (ours, theirs) = (runner::varint_read(&Library, data), runner::varint_read(&Reference, data));
    assert_eq!(ours, theirs, "varint_read of {data:02x?}");
    assert_eq!(ours.fault, None, "varint_read of {data:02x?}");
}

#[track_caller]
fn same_varint_write(room: usize, value: u64) {
    let (ours, theirs) = (runner::varint_write(&Library, room, value), runner::varint_write(&Reference, room, value));
    assert_eq!(ours, theirs, "varint_write of {value} in {room} bytes");
    assert_eq!(ours.fault, None, "varint_write of {value} in {room} bytes");
}

#[track_caller]
fn same_map_read(data: &[u8], count: u64, room: usize) {
    let ours = runner::idmap_read(&Library, data, count, room);
    let theirs = runner::idmap_read(&Reference, data, count, room);
    assert!(ours == theirs && ours.fault.is_none(), "idmap_read of {data:02x?}, count {count}, room {room}:\n library   {ours:?}\n reference {theirs:?}");
}

#[track_caller]
fn same_map_write(room: usize, ids: &[u64], encoding: u64, interval: u64) {
    let ours = runner::idmap_write(&Library, room, ids, encoding, interval);
    let theirs = runner::idmap_write(&Reference, room, ids, encoding, interval);
    assert!(ours == theirs && ours.fault.is_none(), "idmap_write of {ids:?}, encoding {encoding}, interval {interval}, room {room}:\n library   {ours:?}\n reference {theirs:?}");
}

/// Values around each power of two (each power of 128 among them), every room.
#[test]
fn varints_around_powers() {
    for bits in 0..=64u32 {
        let power = 1u64.checked_shl(bits).unwrap_or(0);
        for delta in 0..=6u64 {
            let value = power.wrapping_add(delta).wrapping_sub(3);
            for room in 0..=13 {
                same_varint_write(room, value);
            }
            let mut bytes = maps::varint_bytes(value);
            for length in 0..=bytes.len() {
                same_varint_read(&bytes[..length]);
            }
            bytes.push(0x80);
            same_varint_read(&bytes);
            same_varint_read(&maps::overlong(value));
        }
    }
}

#[test]
fn varints_of_random_values() {
    let mut rng = Rng::new(101);
    for _ in 0..400_000 {
        let value = rng.value();
        let length = varint::length(value);
        let room = match rng.below(4) {
            0 => length - 1,
            1 => length,
            2 => length + rng.below(5),
            _ => rng.below(12),
        };
        same_varint_write(room, value);
        let mut bytes = maps::varint_bytes(value);
        match rng.below(6) {
            0 => bytes = maps::overlong(value),
            1 => bytes.truncate(rng.below(length)),
            2 => damage(&mut rng, &mut bytes),
            _ => (),
        }
        let more = rng.below(4);
        bytes.extend(rng.bytes(more));
        same_varint_read(&bytes);
    }
}

/// Every string of one and of two bytes, every tenth byte, every length up to twelve.
#[test]
fn varints_of_every_short_form() {
    same_varint_read(&[]);
    for first in 0..=255u8 {
        same_varint_read(&[first]);
        for second in 0..=255u8 {
            same_varint_read(&[first, second]);
        }
    }
    for fill in [0x80, 0xFF, 0x81] {
        for length in 0..=12 {
            for last in 0..=255u8 {
                let mut bytes = vec![fill; length];
                same_varint_read(&bytes);
                bytes.push(last);
                same_varint_read(&bytes);
                bytes.push(0x01);
                same_varint_read(&bytes);
            }
        }
    }
}

/// Bytes with long runs of continuation bits, which random bytes hardly have.
#[test]
fn varints_of_random_bytes() {
    let mut rng = Rng::new(102);
    for _ in 0..600_000 {
        let length = rng.below(13);
        let mut bytes = rng.bytes(length);
        let high = rng.below(length + 1);
        bytes[..high].iter_mut().for_each(|byte| *byte |= 0x80);
        if high < length && rng.once_in(2) {
            bytes[high] = rng.pick(&[0, 1, 2, 0x7F]);
        }
        same_varint_read(&bytes);
    }
}

#[test]
fn checksums_of_published_values() {
    for (data, value) in crc::published() {
        assert_eq!(Library.crc32c(&data), value, "{data:02x?}");
    }
}

#[test]
fn checksums_of_every_short_length() {
    let data = Rng::new(103).bytes(2_100);
    for from in [0, 1, 2, 3, 4, 5, 7, 8, 15, 16, 31, 63] {
        for length in 0..=2_000 {
            let part = &data[from..from + length];
            assert_eq!(Library.crc32c(part), crc::crc32c(part), "{length} bytes from {from}");
        }
    }
    for length in 0..=600 {
        assert_eq!(Library.crc32c(&data[1..1 + length]), crc::crc32c_bitwise(&data[1..1 + length]), "{length} bytes");
    }
}

#[test]
fn checksums_of_long_data() {
    let mut rng = Rng::new(104);
    let data = rng.bytes(limits::FILE + 64);
    for length in [4_092, 4_096, 4_097, 53_312, 65_535, 65_536, 1 << 20, (1 << 20) + 1, limits::FILE, limits::FILE + 3] {
        let from = rng.below(61);
        assert_eq!(Library.crc32c(&data[from..from + length]), crc::crc32c(&data[from..from + length]), "{length} bytes");
    }
    // Around the lengths where a window, a part of one and a second window begin.
    let edges = [1_024, 1_024 + 299, 8_192, 8_192 + 299, 16_384, 32_768, 32_768 + 8_192, 40_960 + 5_275, 49_152];
    for length in edges.iter().flat_map(|edge| edge - 3..edge + 4) {
        assert_eq!(Library.crc32c(&data[..length]), crc::crc32c(&data[..length]), "{length} bytes");
    }
    for round in 0..4_000 {
        let length = rng.below(if round < 3_000 { 20_000 } else { 120_000 });
        let from = rng.below(100_000);
        assert_eq!(Library.crc32c(&data[from..from + length]), crc::crc32c(&data[from..from + length]), "{length} from {from}");
    }
    for fill in [0x00, 0xFF, 0x80] {
        let data = vec![fill; 70_000];
        assert_eq!(Library.crc32c(&data), crc::crc32c(&data), "70,000 bytes {fill}");
    }
}

/// Every edge of count and interval, written and read back with every kind of room.
#[test]
fn maps_at_every_edge() {
    let mut rng = Rng::new(105);
    let counts = (1..=70).chain([127, 128, 129, 255, 256, 257, 1_000, 4_095, 4_096]);
    for count in counts {
        let ids = maps::ids(&mut rng, count);
        for (encoding, interval) in maps::intervals(count).map(|interval| (1, interval)).into_iter().chain([(0, 0)]) {
            if interval > 65_535 {
                continue;
            }
            let map = maps::valid(&ids, encoding, interval);
            for room in [0, 1, map.len() - 1, map.len(), map.len() + 1, map.len() + 50] {
                same_map_write(room, &ids, encoding, interval);
            }
            for room in [0, count - 1, count, count + 1, count + 9] {
                same_map_read(&map, count as u64, room);
                same_map_read(&[&map[..], &[0x80, 0, 1]].concat(), count as u64, room);
                same_map_read(&map[..map.len() - 1], count as u64, room);
            }
            for wrong in [0, count as u64 - 1, count as u64 + 1, 4_097, u64::MAX, (1 << 32) + count as u64] {
                same_map_read(&map, wrong, count + 2);
            }
        }
    }
}

/// Maps that keep every rule but the bound on their count.
#[test]
fn maps_of_too_many_ids() {
    let mut rng = Rng::new(108);
    for count in [4_095, 4_096, 4_097, 4_098, 5_000, 8_192] {
        let ids = maps::ids(&mut rng, count);
        for interval in [0, 1, 2, 64, 4_096, 4_097, 65_535] {
            let map = maps::of_any_count(&ids, interval);
            same_map_read(&map, count as u64, count);
            same_map_read(&map, count as u64, 0);
            let accepted = runner::idmap_read(&Library, &map, count as u64, count).number == 0;
            assert_eq!(accepted, count <= 4_096, "{count} ids, interval {interval}");
        }
    }
}

/// Valid and broken maps of every kind.
#[test]
fn maps_valid_and_broken() {
    let mut rng = Rng::new(106);
    for _ in 0..130_000 {
        let case = maps::case(&mut rng);
        let count = case.count.min(4_100) as usize;
        let room = match rng.below(6) {
            0 => 0,
            1 => count.saturating_sub(1),
            2 => count + rng.range(1, 5),
            _ => count,
        };
        same_map_read(&case.data, case.count, room);
    }
}

/// One small map of each encoding, every bit flipped and every length.
#[test]
fn maps_with_every_bit_flipped() {
    let ids = [3, 130, 131, 20_000, 20_001, 5_000_000_000, u64::MAX - 1, u64::MAX];
    for (encoding, interval) in [(0, 0), (1, 1), (1, 2), (1, 3), (1, 8), (1, 64)] {
        let map = maps::valid(&ids, encoding, interval);
        for length in 0..map.len() {
            same_map_read(&map[..length], 8, 8);
        }
        for bit in 0..8 * map.len() {
            let mut broken = map.clone();
            broken[bit / 8] ^= 1 << (bit % 8);
            same_map_read(&broken, 8, 8);
            same_map_read(&broken, 8, 7);
        }
    }
}

/// The writer's inputs, right and wrong, with rooms around the length.
#[test]
fn maps_written() {
    let mut rng = Rng::new(107);
    for _ in 0..40_000 {
        let count = match rng.below(40) {
            0 => rng.pick(&[0, 4_095, 4_096, 4_097, 4_200]),
            1 => rng.range(100, 1_000),
            _ => rng.below(20),
        };
        let mut ids = maps::ids(&mut rng, count);
        let interval = match rng.below(4) {
            0 => rng.pick(&maps::intervals(count)),
            1 => rng.pick(&[0, 0, 65_535, 65_536, 65_537, 1 << 32, u64::MAX]),
            _ => rng.below(20) as u64,
        };
        let encoding = rng.pick(&[0, 0, 1, 1, 1, 1, 2, 255, 256, 257, u64::MAX]);
        let interval = if encoding == 0 && rng.once_in(2) { 0 } else { interval };
        if count > 1 && rng.once_in(5) {
            let at = rng.range(1, count - 1);
            match rng.below(3) {
                0 => ids[at] = ids[at - 1],
                1 => ids.swap(at, at - 1),
                _ => ids[at] = rng.value(),
            }
        }
        let fitting = runner::idmap_write(&Reference, 40_000, &ids, encoding, interval).written.len();
        let room = match rng.below(5) {
            0 => 0,
            1 => fitting.saturating_sub(1),
            2 => fitting + rng.range(1, 9),
            _ => fitting,
        };
        same_map_write(room, &ids, encoding, interval);
    }
}
