//! The requests: what "Words after AndX" of document 01, for the core commands
//! source document 004 and for OPEN_ANDX [MS-CIFS] say stands in a block that the
//! grammar has accepted. A core command has the request of its AndX counterpart where the
//! two do the same.

use crate::grammar::{
    Block, CLOSE, DATA_BLOCK_HEAD, LOCKING_ANDX, LOCK_BYTE_RANGE, LOGOFF_ANDX, OPEN_ANDX,
    PROCESS_EXIT, READ, READ_ANDX, TREE_DISCONNECT, UNLOCK_BYTE_RANGE, WRITE, WRITE_ANDX,
};
use crate::header::{pid_high, whole_process};
use crate::tables::Range;

/// "Type bit 0x01 means shared."
pub const TYPE_SHARED: u8 = 0x01;
/// Type bit 0x10: ranges of 20 bytes.
pub const TYPE_LARGE: u8 = 0x10;
/// The FID with which a READ_ANDX "means the file just opened".
pub const JUST_OPENED: u16 = 0xFFFF;

#[derive(Clone, Copy, Debug, PartialEq, Eq)]
pub enum Request<'m> {
    Close {
        fid: u16,
    },
    ProcessExit,
    Locking {
        fid: u16,
        kind: u8,
        unlocks: Ranges<'m>,
        locks: Ranges<'m>,
    },
    /// LOCK_BYTE_RANGE. "The process from the header; the lock is exclusive."
    Lock {
        fid: u16,
        range: Range,
    },
    /// UNLOCK_BYTE_RANGE.
    Unlock {
        fid: u16,
        range: Range,
    },
    /// READ_ANDX or READ.
    Read {
        fid: u16,
        range: Range,
    },
    /// WRITE_ANDX, or a WRITE whose count is not 0.
    Write {
        fid: u16,
        offset: u64,
        data: &'m [u8],
    },
    /// "A core WRITE of count 0 sets the file's size to the offset".
    Resize {
        fid: u16,
        size: u64,
    },
    /// OPEN_ANDX.
    Open(ToOpen<'m>),
    TreeDisconnect,
    Logoff,
}

/// What an OPEN_ANDX asks for.
#[derive(Clone, Copy, Debug, PartialEq, Eq)]
pub struct ToOpen<'m> {
    pub flags: u16,
    pub access_mode: u16,
    pub open_mode: u16,
    pub name: &'m [u8],
}

/// A part of a LOCKING request's byte area: ranges, still as bytes.
#[derive(Clone, Copy, Debug, PartialEq, Eq)]
pub struct Ranges<'m> {
    bytes: &'m [u8],
    large: bool,
    /// The header's PIDHigh.
    high: u16,
}

/// A range with its process: "a 16-bit process in a lock range takes its upper
/// half from the header" (document 02, request 4), in unlocks as in locks.
#[derive(Clone, Copy, Debug, PartialEq, Eq)]
pub struct OwnedRange {
    pub process: u32,
    pub range: Range,
}

impl<'m> Ranges<'m> {
    pub fn len(&self) -> usize {
        self.bytes.len() / range_bytes(self.large)
    }

    pub fn is_empty(&self) -> bool {
        self.bytes.is_empty()
    }

    pub fn iter(&self) -> impl Iterator<Item = OwnedRange> + Clone + 'm {
        let Ranges { bytes, large, high } = *self;
        let range = if large { large_range } else { small_range };
        let ranges = bytes.chunks_exact(range_bytes(large));
        ranges.map(move |bytes| OwnedRange {
            process: whole_process(high, u16_at(bytes, 0)),
            range: range(bytes),
        })
    }
}

fn range_bytes(large: bool) -> usize {
    if large {
        20
    } else {
        10
    }
}

/// "process 2, offset 4, length 4"
fn small_range(bytes: &[u8]) -> Range {
    Range {
        offset: u32_at(bytes, 2).into(),
        length: u32_at(bytes, 6).into(),
    }
}

/// "process 2, pad 2, offset high 4, low 4, length high 4, low 4"; the pad is
/// not looked at (docs/DECISIONS.md, 76).
fn large_range(bytes: &[u8]) -> Range {
    Range {
        offset: high_and_low(u32_at(bytes, 4), u32_at(bytes, 8)),
        length: high_and_low(u32_at(bytes, 12), u32_at(bytes, 16)),
    }
}

impl<'m> Request<'m> {
    /// The request in a block that the grammar has accepted.
    pub fn read(message: &'m [u8], block: &Block) -> Request<'m> {
        let bytes = &message[block.offset..block.offset + block.length];
        let (words, rest) = bytes[1..].split_at(2 * usize::from(bytes[0]));
        match block.command {
            CLOSE => Request::Close {
                fid: u16_at(words, 0),
            },
            PROCESS_EXIT => Request::ProcessExit,
            // The byte area is behind ByteCount.
            LOCKING_ANDX => locking(words, &rest[2..], pid_high(message)),
            OPEN_ANDX => open(words, &rest[2..]),
            READ_ANDX => read(words),
            WRITE_ANDX => write(message, words),
            READ => core_read(words),
            WRITE => core_write(words, &rest[2 + DATA_BLOCK_HEAD..]),
            LOCK_BYTE_RANGE => Request::Lock {
                fid: u16_at(words, 0),
                range: core_range(words),
            },
            UNLOCK_BYTE_RANGE => Request::Unlock {
                fid: u16_at(words, 0),
                range: core_range(words),
            },
            TREE_DISCONNECT => Request::TreeDisconnect,
            LOGOFF_ANDX => Request::Logoff,
            command => unreachable!("the grammar accepts no command {command:#04X}"),
        }
    }

    /// The request directly behind an OPEN_ANDX that gave this FID, or behind
    /// none: "READ_ANDX may follow [...], where FID 0xFFFF means the file just
    /// opened".
    pub fn behind_open(self, opened: Option<u16>) -> Request<'m> {
        match (self, opened) {
            (Request::Read { fid, range }, Some(opened)) if fid == JUST_OPENED => {
                Request::Read { fid: opened, range }
            }
            _ => self,
        }
    }
}

/// "FID 2, type 1, oplock 1, timeout 4, unlocks 2, locks 2; ranges, unlocks
/// first"
fn locking<'m>(words: &[u8], area: &'m [u8], high: u16) -> Request<'m> {
    let kind = words[6];
    let large = kind & TYPE_LARGE != 0;
    let unlocks = usize::from(u16_at(words, 12));
    let (unlocks, locks) = area.split_at(unlocks * range_bytes(large));
    let ranges = |bytes| Ranges { bytes, large, high };
    Request::Locking {
        fid: u16_at(words, 4),
        kind,
        unlocks: ranges(unlocks),
        locks: ranges(locks),
    }
}

/// "Flags 2, AccessMode 2, SearchAttrs 2, FileAttrs 2, CreationTime 4, OpenMode 2,
/// AllocationSize 4, Timeout 4, Reserved 4"; the byte area is the name and its
/// zero byte.
fn open<'m>(words: &[u8], area: &'m [u8]) -> Request<'m> {
    Request::Open(ToOpen {
        flags: u16_at(words, 4),
        access_mode: u16_at(words, 6),
        open_mode: u16_at(words, 16),
        name: &area[..area.len() - 1],
    })
}

/// "FID 2, offset 4, max 2, min 2, timeout 4, remaining 2, offset high 4 if
/// 12 words"
fn read(words: &[u8]) -> Request<'static> {
    Request::Read {
        fid: u16_at(words, 4),
        range: Range {
            offset: high_and_low(high(words, 20), u32_at(words, 6)),
            length: u16_at(words, 10).into(),
        },
    }
}

/// "FID 2, offset 4, timeout 4, mode 2, remaining 2, reserved 2, length 2,
/// data offset 2, offset high 4 if 14"
fn write<'m>(message: &'m [u8], words: &[u8]) -> Request<'m> {
    let length = usize::from(u16_at(words, 20));
    // DataOffset is from the header's start.
    let start = usize::from(u16_at(words, 22));
    Request::Write {
        fid: u16_at(words, 4),
        offset: high_and_low(high(words, 24), u32_at(words, 6)),
        data: &message[start..start + length],
    }
}

/// "READ, WRITE: FID, count 2, offset 4, remaining 2."
fn core_read(words: &[u8]) -> Request<'static> {
    Request::Read {
        fid: u16_at(words, 0),
        range: Range {
            offset: u32_at(words, 4).into(),
            length: u16_at(words, 2).into(),
        },
    }
}

/// The same words. The data are as many as the count.
fn core_write<'m>(words: &[u8], data: &'m [u8]) -> Request<'m> {
    let (fid, offset) = (u16_at(words, 0), u32_at(words, 4).into());
    if data.is_empty() {
        return Request::Resize { fid, size: offset };
    }
    Request::Write { fid, offset, data }
}

/// "LOCK, UNLOCK: FID, count 4, then offset 4."
fn core_range(words: &[u8]) -> Range {
    Range {
        offset: u32_at(words, 6).into(),
        length: u32_at(words, 2).into(),
    }
}

/// The upper half of an offset, 0 if the words end before it.
fn high(words: &[u8], place: usize) -> u32 {
    if words.len() > place {
        u32_at(words, place)
    } else {
        0
    }
}

fn high_and_low(high: u32, low: u32) -> u64 {
    u64::from(high) << 32 | u64::from(low)
}

/// The little-endian numbers at a place.
pub(crate) fn u16_at(bytes: &[u8], place: usize) -> u16 {
    u16::from_le_bytes([bytes[place], bytes[place + 1]])
}

pub(crate) fn u32_at(bytes: &[u8], place: usize) -> u32 {
    u32::from_le_bytes([
        bytes[place],
        bytes[place + 1],
        bytes[place + 2],
        bytes[place + 3],
    ])
}
