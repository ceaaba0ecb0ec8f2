//! The form of a batch, with the reason why one does not keep it. The store's library says
//! that a batch breaks a rule; this says which, and where.

use crate::walk::{le16, le32, reserved_type, FLAGS};
use rvf::{BATCH_LIMIT, MANIFEST};
use std::ops::Range;

const HEAD: usize = 16;
const LINE: usize = 16;
const BODIES: usize = 16;

/// A body of a batch: its type, and the bytes that it is.
pub struct Body {
    pub kind: u8,
    pub bytes: Range<usize>,
}

/// The bodies of a batch; else the rule that it breaks first, and where.
pub fn bodies(batch: &[u8]) -> Result<Vec<Body>, String> {
    let length = batch.len();
    if !(HEAD..=BATCH_LIMIT).contains(&length) {
        let more = if length > BATCH_LIMIT { "more than " } else { "" };
        let shown = length.min(BATCH_LIMIT);
        return Err(format!("it has {more}{shown} bytes, a batch has {HEAD} to {BATCH_LIMIT}"));
    }
    let count = le32(batch, 0) as usize;
    if count > BODIES {
        return Err(format!("byte 0: the number of bodies is {count}, a batch has at most {BODIES}"));
    }
    if let Some(at) = batch[4..HEAD].iter().position(|&byte| byte != 0) {
        return Err(format!("byte {}: must be zero", 4 + at));
    }
    let mut offset = HEAD + LINE * count;
    if offset > length {
        return Err(format!("it ends at byte {length}, before line {} does", (length - HEAD) / LINE + 1));
    }
    let mut bodies = Vec::with_capacity(count);
    for index in 0..count {
        let start = HEAD + LINE * index;
        let line = &batch[start..start + LINE];
        let body = judge(line, offset, length);
        let body = body.map_err(|(byte, words)| format!("line {} at byte {}: {words}", index + 1, start + byte))?;
        offset = body.bytes.end;
        bodies.push(body);
    }
    if offset < length {
        return Err(format!("byte {offset}: {} bytes lie behind the last body", length - offset));
    }
    Ok(bodies)
}

/// A line: type, a zero byte, flags, offset, length, zeros. `offset` is where its body must
/// begin, `length` the batch's.
fn judge(line: &[u8], offset: usize, length: usize) -> Result<Body, (usize, String)> {
    let (kind, flags, start, size) = (line[0], le16(line, 2), le32(line, 4), le32(line, 8) as usize);
    if kind == MANIFEST {
        return Err((0, "the type is 5: an append writes the manifest itself".to_string()));
    }
    if kind == 0 || reserved_type(kind) {
        let why = if kind == 0 { "no segment has it" } else { "0x0e to 0xef are reserved" };
        return Err((0, format!("the type 0x{kind:02x} is not allowed: {why}")));
    }
    if line[1] != 0 {
        return Err((1, "must be zero".to_string()));
    }
    if flags & !FLAGS != 0 {
        return Err((2, format!("the flags 0x{flags:04x} are not allowed (only 0x03c8 and parts of it)")));
    }
    if start as usize != offset {
        return Err((4, format!("the offset is {start}, and the body begins at byte {offset}: there are no gaps")));
    }
    if size > length - offset {
        return Err((8, format!("the length is {size}, and only {} bytes are left", length - offset)));
    }
    if let Some(at) = line[12..].iter().position(|&byte| byte != 0) {
        return Err((12 + at, "must be zero".to_string()));
    }
    Ok(Body { kind, bytes: offset..offset + size })
}
