//! The refusals: each carries its number and says in words what it means.

use std::fmt;

/// Why a call did not answer. The number is that of `include/rvf.h`.
#[derive(Clone, Copy, Debug, PartialEq, Eq, Hash)]
#[repr(u32)]
pub enum Refusal {
    FileTooLong = 1,
    NoManifest = 2,
    NotLive = 3,
    ContentHash = 4,
    Layout = 5,
    Dtype = 6,
    BlockChecksum = 7,
    NoVector = 8,
    NoRoom = 9,
    Batch = 10,
    Retire = 11,
    DirectoryFull = 12,
    IdsUsedUp = 13,
    Input = 14,
    ReservedType = 15,
}

impl Refusal {
    /// All of them, in the order of their numbers, from 1 on.
    pub const ALL: [Refusal; 15] = [
        Refusal::FileTooLong,
        Refusal::NoManifest,
        Refusal::NotLive,
        Refusal::ContentHash,
        Refusal::Layout,
        Refusal::Dtype,
        Refusal::BlockChecksum,
        Refusal::NoVector,
        Refusal::NoRoom,
        Refusal::Batch,
        Refusal::Retire,
        Refusal::DirectoryFull,
        Refusal::IdsUsedUp,
        Refusal::Input,
        Refusal::ReservedType,
    ];

    pub fn number(self) -> u32 {
        self as u32
    }

    /// The refusal with a number; none for 0, which is acceptance, and above 15.
    pub fn from_number(number: u32) -> Option<Refusal> {
        Refusal::ALL.get((number as usize).checked_sub(1)?).copied()
    }

    pub fn meaning(self) -> &'static str {
        match self {
            Refusal::FileTooLong => "the file, or the file after the append, is above 16,777,216 bytes",
            Refusal::NoManifest => "the file has no confirmed manifest",
            Refusal::NotLive => "no live segment with this id is in the directory",
            Refusal::ContentHash => "a segment's content hash differs",
            Refusal::Layout => "a layout, an id map or a varint breaks a rule",
            Refusal::Dtype => "a block's dtype is not one of f32, i8, u8",
            Refusal::BlockChecksum => "a block's checksum differs",
            Refusal::NoVector => "there is no such vector, or its dim is not above the component's index",
            Refusal::NoRoom => "the buffer is too short",
            Refusal::Batch => "the batch breaks a rule of its form",
            Refusal::Retire => "an id to retire is not in the directory, is a manifest, is retired, or is listed twice",
            Refusal::DirectoryFull => "the directory would have more than 1,024 entries",
            Refusal::IdsUsedUp => "an id would pass 2^64 - 1",
            Refusal::Input => "what is to be written breaks a rule",
            Refusal::ReservedType => "the segment's type is reserved (0x0E to 0xEF): its payload is not handed out",
        }
    }
}

impl fmt::Display for Refusal {
    fn fmt(&self, out: &mut fmt::Formatter<'_>) -> fmt::Result {
        write!(out, "refused {}: {}", self.number(), self.meaning())
    }
}

impl std::error::Error for Refusal {}
