//! A file put together from segments of another: each as it was, and one manifest behind them.

use crate::manifests::{payload_length, root, ENTRY, RECORD_HEAD, ROOT};
use crate::pieces::Piece;
use crate::walk::{content_hash, HEADER};
use rvf::MANIFEST;

/// A new file: ids, times, flags and states as they are, the manifest's id and time as told.
pub fn rebuilt(file: &[u8], pieces: &[Piece], id: u64, time: u64) -> Vec<u8> {
    let mut new = Vec::new();
    let mut payload = vec![0; payload_length(pieces.len())];
    payload[0] = 1;
    payload[2..6].copy_from_slice(&((ENTRY * pieces.len()) as u32).to_le_bytes());
    for (piece, entry) in pieces.iter().zip(payload[RECORD_HEAD..].chunks_exact_mut(ENTRY)) {
        let header = header(piece, piece.payload(file));
        entry[..8].copy_from_slice(&(new.len() as u64).to_le_bytes());
        entry[8..24].copy_from_slice(&header[8..24]);
        entry[24..40].copy_from_slice(&header[40..56]);
        entry[40..44].copy_from_slice(&[piece.kind, u8::from(piece.retired), header[6], header[7]]);
        put(&mut new, &header, piece.payload(file));
    }
    let offset = new.len();
    let end = offset + HEADER + payload.len();
    let place = payload.len() - ROOT;
    payload[place..].copy_from_slice(&root(offset, end, id, pieces.len()));
    let hash = content_hash(&payload);
    let manifest = Piece { offset, id, length: payload.len(), kind: MANIFEST, flags: 0, retired: false, time, hash };
    put(&mut new, &header(&manifest, &payload), &payload);
    new
}

fn header(piece: &Piece, payload: &[u8]) -> [u8; HEADER] {
    let mut header = [0; HEADER];
    header[..4].copy_from_slice(b"RVFS");
    header[4..6].copy_from_slice(&[1, piece.kind]);
    header[6..8].copy_from_slice(&piece.flags.to_le_bytes());
    for (field, number) in [(8, piece.id), (16, payload.len() as u64), (24, piece.time)] {
        header[field..field + 8].copy_from_slice(&number.to_le_bytes());
    }
    header[40..56].copy_from_slice(&content_hash(payload));
    header
}

/// A segment at the end of a file, padded.
fn put(new: &mut Vec<u8>, header: &[u8], payload: &[u8]) {
    new.extend_from_slice(header);
    new.extend_from_slice(payload);
    new.resize(new.len().next_multiple_of(HEADER), 0);
}
