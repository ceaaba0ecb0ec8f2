//! Makes one call with buffers that notice every wrong byte. A buffer is exactly as
//! long as the case says, filled with a pattern and guarded on both sides; `out`
//! holds a pattern too. The outcome says what was answered and written, and names a
//! fault where the call changed what it must leave alone. Outcomes of the library and
//! of the reference are then compared as wholes.

use crate::calls::{Calls, VecInput};

/// What `out` holds before a call.
const UNSET: u64 = 0xD1CE_5EED_0DD5_0A5B;
/// Guard elements on each side of a buffer.
const GUARD: usize = 24;

const BEHIND: &str = "a byte behind the written ones changed";
const REFUSED: &str = "a refusal changed the buffer";
const OUTSIDE: &str = "a byte outside the buffer changed";
const OUT: &str = "a refusal changed out";
const TOO_LONG: &str = "the length answered is above the room";

/// The outcome of a call with `K` values that writes elements of type `T`.
#[derive(Clone, Debug, PartialEq, Eq)]
pub struct Outcome<const K: usize, T = u8> {
    /// 0 or the refusal number.
    pub number: u32,
    pub out: [u64; K],
    /// The elements written: the front of the buffer, or all of it where the call
    /// writes in the middle. Empty on a refusal.
    pub written: Vec<T>,
    pub fault: Option<&'static str>,
}

/// A buffer element: its pattern at an index.
pub trait Element: Copy + PartialEq {
    fn pattern(index: usize) -> Self;
}

impl Element for u8 {
    fn pattern(index: usize) -> u8 {
        (index as u8).wrapping_mul(37) ^ 0x5A
    }
}

impl Element for u64 {
    fn pattern(index: usize) -> u64 {
        (index as u64 + 1).wrapping_mul(0x9E37_79B9_7F4A_7C15)
    }
}

/// Runs a call that writes to the front of a buffer of `room` elements; `length` finds
/// the number of elements written in `out`.
fn writing<const K: usize, T: Element>(
    room: usize,
    length: impl Fn(&[u64; K]) -> u64,
    call: impl FnOnce(&mut [T], &mut [u64; K]) -> u32,
) -> Outcome<K, T> {
    let mut all: Vec<T> = (0..room + 2 * GUARD).map(T::pattern).collect();
    let mut out = [UNSET; K];
    let number = call(&mut all[GUARD..GUARD + room], &mut out);
    let untouched = |from: usize, to: usize| (from..to).all(|at| all[at] == T::pattern(at));
    let mut fault = None;
    let mut written = Vec::new();
    if !untouched(0, GUARD) || !untouched(GUARD + room, all.len()) {
        fault = Some(OUTSIDE);
    } else if number != 0 {
        if out != [UNSET; K] {
            fault = Some(OUT);
        } else if !untouched(GUARD, GUARD + room) {
            fault = Some(REFUSED);
        }
    } else if length(&out) > room as u64 {
        fault = Some(TOO_LONG);
    } else {
        let end = GUARD + length(&out) as usize;
        written.extend_from_slice(&all[GUARD..end]);
        if !untouched(end, GUARD + room) {
            fault = Some(BEHIND);
        }
    }
    Outcome { number, out, written, fault }
}

/// Runs a call that writes nothing but `out`; `kept` says which values a refusal must
/// leave alone.
fn reading<const K: usize>(
    kept: impl Fn(u32, usize) -> bool,
    call: impl FnOnce(&mut [u64; K]) -> u32,
) -> Outcome<K> {
    let mut out = [UNSET; K];
    let number = call(&mut out);
    let changed = number != 0 && (0..K).any(|at| kept(number, at) && out[at] != UNSET);
    Outcome { number, out, written: Vec::new(), fault: changed.then_some(OUT) }
}

pub fn varint_read(calls: &dyn Calls, data: &[u8]) -> Outcome<2> {
    reading(|_, _| true, |out| calls.varint_read(data, out))
}

pub fn varint_write(calls: &dyn Calls, room: usize, value: u64) -> Outcome<1> {
    writing(room, |out| out[0], |buffer, out| calls.varint_write(buffer, value, out))
}

/// The ids written are `count` many; `out` has the map's length.
pub fn idmap_read(calls: &dyn Calls, data: &[u8], count: u64, room: usize) -> Outcome<1, u64> {
    writing(room, |_| count, |ids, out| calls.idmap_read(data, count, ids, out))
}

pub fn idmap_write(calls: &dyn Calls, room: usize, ids: &[u64], encoding: u64, interval: u64) -> Outcome<1> {
    writing(room, |out| out[0], |buffer, out| calls.idmap_write(buffer, ids, encoding, interval, out))
}

pub fn vec_write(calls: &dyn Calls, room: usize, input: &VecInput) -> Outcome<1> {
    writing(room, |out| out[0], |buffer, out| calls.vec_write(buffer, input, out))
}

pub fn vec_read(calls: &dyn Calls, payload: &[u8], id: u64, room: usize) -> Outcome<3> {
    writing(room, |out| out[2], |buffer, out| calls.vec_read(payload, id, buffer, out))
}

/// Opening's 2 sets the boundaries tried and nothing else.
pub fn open(calls: &dyn Calls, file: &[u8]) -> Outcome<5> {
    reading(|number, at| number != 2 || at != 4, |out| calls.open(file, out))
}

pub fn entry(calls: &dyn Calls, file: &[u8], index: u64) -> Outcome<8> {
    reading(|_, _| true, |out| calls.entry(file, index, out))
}

pub fn payload(calls: &dyn Calls, file: &[u8], id: u64) -> Outcome<2> {
    reading(|_, _| true, |out| calls.payload(file, id, out))
}

pub fn vector(calls: &dyn Calls, file: &[u8], id: u64, room: usize) -> Outcome<3> {
    writing(room, |out| out[2], |buffer, out| calls.vector(file, id, buffer, out))
}

pub fn component(calls: &dyn Calls, file: &[u8], id: u64, index: u64) -> Outcome<2> {
    reading(|_, _| true, |out| calls.component(file, id, index, out))
}

pub fn list(calls: &dyn Calls, file: &[u8], room: usize) -> Outcome<1> {
    writing(room, |out| out[0], |buffer, out| calls.list(file, buffer, out))
}

pub fn compact(calls: &dyn Calls, file: &[u8], room: usize) -> Outcome<3> {
    writing(room, |out| out[0], |buffer, out| calls.compact(file, buffer, out))
}

/// Appends in place to `buffer`. A refusal must leave it as it was; what an accepted
/// call may change is between the old file's manifest end (`start`) and the new end.
pub fn append(
    calls: &dyn Calls,
    buffer: &mut Vec<u8>,
    n: u64,
    batch: &[u8],
    retire: &[u64],
    time: u64,
    start: usize,
) -> Outcome<3> {
    let room = buffer.len();
    let mut all = Vec::with_capacity(room + GUARD);
    all.extend_from_slice(buffer);
    all.extend((0..GUARD).map(u8::pattern));
    let mut out = [UNSET; 3];
    let number = calls.append(&mut all[..room], n, batch, retire, time, &mut out);
    let guard_kept = all[room..].iter().enumerate().all(|(at, &byte)| byte == u8::pattern(at));
    let end = out[0];
    let mut written = Vec::new();
    let fault = if !guard_kept {
        Some(OUTSIDE)
    } else if number != 0 {
        let changed = (all[..room] != buffer[..]).then_some(REFUSED);
        if out != [UNSET; 3] { Some(OUT) } else { changed }
    } else if end > room as u64 || end < start as u64 {
        Some(TOO_LONG)
    } else {
        let end = end as usize;
        written.extend_from_slice(&all[start..end]);
        (all[..start] != buffer[..start] || all[end..room] != buffer[end..]).then_some(BEHIND)
    };
    all.truncate(room);
    *buffer = all;
    Outcome { number, out, written, fault }
}
