//! Makes messages from the fields that matter, for tests and comparisons.
//! What document 01 does not look at is filled by the caller.

use crate::grammar::{
    CLOSE, DATA_BLOCK_HEAD, DATA_MARK, LOCKING_ANDX, LOCK_BYTE_RANGE, LOGOFF_ANDX, OPEN_ANDX,
    PROCESS_EXIT, READ, READ_ANDX, TREE_DISCONNECT, UNLOCK_BYTE_RANGE, WRITE, WRITE_ANDX,
};
use crate::header::{FLAGS2, FLAGS2_NT_STATUS};
use crate::status::StatusForm;

/// The fields of a header that a reply or an answer depends on.
#[derive(Clone, Copy, Debug, Default, PartialEq, Eq)]
pub struct Header {
    pub tid: u16,
    /// The process: PIDHigh and PIDLow are its halves.
    pub pid: u32,
    pub uid: u16,
}

/// Process (its lower half, which is all that a range has), offset and length.
pub type Asked = (u16, u64, u64);

/// A block to be made.
#[derive(Clone, Debug, PartialEq, Eq)]
pub enum Ask {
    Locking {
        fid: u16,
        /// The type byte; 0x10 makes ranges of 20 bytes.
        kind: u8,
        unlocks: Vec<Asked>,
        locks: Vec<Asked>,
    },
    Read {
        fid: u16,
        offset: u64,
        max: u16,
        /// 12 words, not 10.
        long: bool,
    },
    Write {
        fid: u16,
        offset: u64,
        data: Vec<u8>,
        /// 14 words, not 12.
        long: bool,
        /// Bytes of the byte area before and behind the data.
        around: (usize, usize),
    },
    /// READ.
    CoreRead {
        fid: u16,
        offset: u32,
        count: u16,
    },
    /// WRITE; without data it sets the size.
    CoreWrite {
        fid: u16,
        offset: u32,
        data: Vec<u8>,
    },
    /// LOCK_BYTE_RANGE.
    LockRange {
        fid: u16,
        offset: u32,
        length: u32,
    },
    /// UNLOCK_BYTE_RANGE.
    UnlockRange {
        fid: u16,
        offset: u32,
        length: u32,
    },
    /// OPEN_ANDX.
    Open {
        flags: u16,
        access_mode: u16,
        open_mode: u16,
        name: Vec<u8>,
    },
    Close {
        fid: u16,
    },
    Logoff,
    TreeDisconnect,
    ProcessExit,
}

/// A LOCKING block of these ranges.
pub fn locking(fid: u16, kind: u8, unlocks: &[Asked], locks: &[Asked]) -> Ask {
    Ask::Locking {
        fid,
        kind,
        unlocks: unlocks.to_vec(),
        locks: locks.to_vec(),
    }
}

/// An OPEN_ANDX of what exists, with these codes, that asks for nothing but the
/// FID.
pub fn open(access: u8, sharing: u8, name: &[u8]) -> Ask {
    Ask::Open {
        flags: 0,
        access_mode: u16::from(sharing) << 4 | u16::from(access),
        open_mode: 1,
        name: name.to_vec(),
    }
}

pub fn core_read(fid: u16, offset: u32, count: u16) -> Ask {
    Ask::CoreRead { fid, offset, count }
}

pub fn core_write(fid: u16, offset: u32, data: &[u8]) -> Ask {
    Ask::CoreWrite {
        fid,
        offset,
        data: data.to_vec(),
    }
}

pub fn lock_range(fid: u16, offset: u32, length: u32) -> Ask {
    Ask::LockRange {
        fid,
        offset,
        length,
    }
}

pub fn unlock_range(fid: u16, offset: u32, length: u32) -> Ask {
    Ask::UnlockRange {
        fid,
        offset,
        length,
    }
}

impl Ask {
    pub fn command(&self) -> u8 {
        match self {
            Ask::Locking { .. } => LOCKING_ANDX,
            Ask::Read { .. } => READ_ANDX,
            Ask::Write { .. } => WRITE_ANDX,
            Ask::CoreRead { .. } => READ,
            Ask::CoreWrite { .. } => WRITE,
            Ask::LockRange { .. } => LOCK_BYTE_RANGE,
            Ask::UnlockRange { .. } => UNLOCK_BYTE_RANGE,
            Ask::Open { .. } => OPEN_ANDX,
            Ask::Close { .. } => CLOSE,
            Ask::Logoff => LOGOFF_ANDX,
            Ask::TreeDisconnect => TREE_DISCONNECT,
            Ask::ProcessExit => PROCESS_EXIT,
        }
    }

    /// The FID named, if there is one.
    pub fn fid(&self) -> Option<u16> {
        match *self {
            Ask::Locking { fid, .. }
            | Ask::Read { fid, .. }
            | Ask::Write { fid, .. }
            | Ask::CoreRead { fid, .. }
            | Ask::CoreWrite { fid, .. }
            | Ask::LockRange { fid, .. }
            | Ask::UnlockRange { fid, .. }
            | Ask::Close { fid } => Some(fid),
            Ask::Open { .. } | Ask::Logoff | Ask::TreeDisconnect | Ask::ProcessExit => None,
        }
    }

    /// The same for another FID, if there is one.
    pub fn set_fid(&mut self, number: u16) {
        match self {
            Ask::Locking { fid, .. }
            | Ask::Read { fid, .. }
            | Ask::Write { fid, .. }
            | Ask::CoreRead { fid, .. }
            | Ask::CoreWrite { fid, .. }
            | Ask::LockRange { fid, .. }
            | Ask::UnlockRange { fid, .. }
            | Ask::Close { fid } => *fid = number,
            Ask::Open { .. } | Ask::Logoff | Ask::TreeDisconnect | Ask::ProcessExit => {}
        }
    }

    /// The block at a place, the last of its chain.
    pub fn block(&self, offset: usize, fill: &mut impl FnMut() -> u8) -> Vec<u8> {
        match self {
            Ask::Locking {
                fid,
                kind,
                unlocks,
                locks,
            } => locking_block(*fid, *kind, unlocks, locks, fill),
            Ask::Read {
                fid,
                offset,
                max,
                long,
            } => read_block(*fid, *offset, *max, *long, fill),
            Ask::Write { .. } => self.write_block(offset, fill),
            Ask::CoreRead { fid, offset, count } => {
                let mut block = core_words(*fid, *offset, *count, fill);
                block.extend([0, 0]);
                block
            }
            Ask::CoreWrite { fid, offset, data } => core_write_block(*fid, *offset, data, fill),
            Ask::LockRange {
                fid,
                offset,
                length,
            }
            | Ask::UnlockRange {
                fid,
                offset,
                length,
            } => core_range_block(*fid, *offset, *length),
            Ask::Open {
                flags,
                access_mode,
                open_mode,
                name,
            } => open_block([*flags, *access_mode, *open_mode], name, fill),
            Ask::Close { fid } => close_block(*fid, fill),
            Ask::Logoff => vec![2, 0xFF, fill(), fill(), fill(), 0, 0],
            Ask::TreeDisconnect | Ask::ProcessExit => vec![0, 0, 0],
        }
    }

    fn write_block(&self, place: usize, fill: &mut impl FnMut() -> u8) -> Vec<u8> {
        let Ask::Write {
            fid,
            offset,
            data,
            long,
            around,
        } = self
        else {
            return Vec::new();
        };
        let words = if *long { 14 } else { 12 };
        let mut block = vec![words, 0xFF, fill(), fill(), fill()];
        block.extend(fid.to_le_bytes());
        block.extend((*offset as u32).to_le_bytes());
        // Timeout 4, mode 2, remaining 2, reserved 2.
        block.extend((0..10).map(|_| fill()));
        block.extend((data.len() as u16).to_le_bytes());
        let data_offset = place + 1 + 2 * usize::from(words) + 2 + around.0;
        block.extend((data_offset as u16).to_le_bytes());
        if *long {
            block.extend(((*offset >> 32) as u32).to_le_bytes());
        }
        block.extend(((around.0 + data.len() + around.1) as u16).to_le_bytes());
        block.extend((0..around.0).map(|_| fill()));
        block.extend(data);
        block.extend((0..around.1).map(|_| fill()));
        block
    }
}

fn locking_block(
    fid: u16,
    kind: u8,
    unlocks: &[Asked],
    locks: &[Asked],
    fill: &mut impl FnMut() -> u8,
) -> Vec<u8> {
    let mut block = vec![8, 0xFF, fill(), fill(), fill()];
    block.extend(fid.to_le_bytes());
    block.push(kind);
    // Oplock 1, timeout 4.
    block.extend((0..5).map(|_| fill()));
    block.extend((unlocks.len() as u16).to_le_bytes());
    block.extend((locks.len() as u16).to_le_bytes());
    let size = if kind & 0x10 == 0 { 10 } else { 20 };
    block.extend((((unlocks.len() + locks.len()) * size) as u16).to_le_bytes());
    for &(process, offset, length) in unlocks.iter().chain(locks) {
        block.extend(process.to_le_bytes());
        if kind & 0x10 == 0 {
            block.extend((offset as u32).to_le_bytes());
            block.extend((length as u32).to_le_bytes());
        } else {
            block.extend([fill(), fill()]);
            for number in [offset, length] {
                block.extend(((number >> 32) as u32).to_le_bytes());
                block.extend((number as u32).to_le_bytes());
            }
        }
    }
    block
}

fn read_block(
    fid: u16,
    offset: u64,
    max: u16,
    long: bool,
    fill: &mut impl FnMut() -> u8,
) -> Vec<u8> {
    let words = if long { 12 } else { 10 };
    let mut block = vec![words, 0xFF, fill(), fill(), fill()];
    block.extend(fid.to_le_bytes());
    block.extend((offset as u32).to_le_bytes());
    block.extend(max.to_le_bytes());
    // Min 2, timeout 4, remaining 2.
    block.extend((0..8).map(|_| fill()));
    if long {
        block.extend(((offset >> 32) as u32).to_le_bytes());
    }
    block.extend([0, 0]);
    block
}

/// Flags, AccessMode and OpenMode are given; the name gets its zero byte.
fn open_block(given: [u16; 3], name: &[u8], fill: &mut impl FnMut() -> u8) -> Vec<u8> {
    let [flags, access_mode, open_mode] = given.map(u16::to_le_bytes);
    let mut block = vec![15, 0xFF, fill(), fill(), fill()];
    block.extend(flags);
    block.extend(access_mode);
    // SearchAttrs 2, FileAttrs 2, CreationTime 4.
    block.extend((0..8).map(|_| fill()));
    block.extend(open_mode);
    // AllocationSize 4, Timeout 4, Reserved 4.
    block.extend((0..12).map(|_| fill()));
    block.extend((name.len() as u16 + 1).to_le_bytes());
    block.extend(name);
    block.push(0);
    block
}

/// WordCount and the words of READ and WRITE: FID, count, offset, remaining.
fn core_words(fid: u16, offset: u32, count: u16, fill: &mut impl FnMut() -> u8) -> Vec<u8> {
    let mut block = vec![5];
    block.extend(fid.to_le_bytes());
    block.extend(count.to_le_bytes());
    block.extend(offset.to_le_bytes());
    block.extend([fill(), fill()]);
    block
}

fn core_write_block(fid: u16, offset: u32, data: &[u8], fill: &mut impl FnMut() -> u8) -> Vec<u8> {
    let count = data.len() as u16;
    let mut block = core_words(fid, offset, count, fill);
    block.extend((count + DATA_BLOCK_HEAD as u16).to_le_bytes());
    block.push(DATA_MARK);
    block.extend(count.to_le_bytes());
    block.extend(data);
    block
}

/// LOCK and UNLOCK: FID, count 4, offset 4, and no bytes.
fn core_range_block(fid: u16, offset: u32, length: u32) -> Vec<u8> {
    let mut block = vec![5];
    block.extend(fid.to_le_bytes());
    block.extend(length.to_le_bytes());
    block.extend(offset.to_le_bytes());
    block.extend([0, 0]);
    block
}

fn close_block(fid: u16, fill: &mut impl FnMut() -> u8) -> Vec<u8> {
    let mut block = vec![3];
    block.extend(fid.to_le_bytes());
    block.extend((0..4).map(|_| fill()));
    block.extend([0, 0]);
    block
}

/// A header with the given command; Flags without 0x80.
pub fn header(command: u8, numbers: Header, fill: &mut impl FnMut() -> u8) -> Vec<u8> {
    let mut bytes = vec![0xFF, 0x53, 0x4D, 0x42, command];
    bytes.extend((5..24).map(|_| fill()));
    bytes[9] &= 0x7F;
    let [low, high] = [numbers.pid as u16, (numbers.pid >> 16) as u16];
    bytes[12..14].copy_from_slice(&high.to_le_bytes());
    bytes.extend(numbers.tid.to_le_bytes());
    bytes.extend(low.to_le_bytes());
    bytes.extend(numbers.uid.to_le_bytes());
    bytes.extend([fill(), fill()]);
    bytes
}

/// Makes a message ask for this form of Status, if it is so long that it has
/// Flags2.
pub fn set_status_form(message: &mut [u8], form: StatusForm) {
    if let Some(field) = message.get_mut(FLAGS2..FLAGS2 + 2) {
        let others = u16::from_le_bytes([field[0], field[1]]) & !FLAGS2_NT_STATUS;
        let bit = match form {
            StatusForm::Smb => 0,
            StatusForm::Nt => FLAGS2_NT_STATUS,
        };
        field.copy_from_slice(&(others | bit).to_le_bytes());
    }
}

/// A message of the blocks in turn, `gap` free bytes before each but the
/// first. It is a sentence if the successions are in the grammar.
pub fn message(
    numbers: Header,
    asks: &[Ask],
    gap: &mut impl FnMut() -> usize,
    fill: &mut impl FnMut() -> u8,
) -> Vec<u8> {
    let mut bytes = header(asks[0].command(), numbers, fill);
    let mut last = None;
    for ask in asks {
        if let Some(last) = last {
            let free = gap();
            bytes.extend((0..free).map(|_| fill()));
            let offset = (bytes.len() as u16).to_le_bytes();
            bytes[last + 1] = ask.command();
            bytes[last + 3..last + 5].copy_from_slice(&offset);
        }
        last = Some(bytes.len());
        let block = ask.block(bytes.len(), fill);
        bytes.extend(block);
    }
    bytes
}
