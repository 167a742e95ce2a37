//! Where the tables stand in the words.

/// Where each table's count stands; its records follow. The files have no count.
pub const SESSIONS: usize = 0;
pub const TREES: usize = 33;
pub const OPENS: usize = 130;
pub const LOCKS: usize = 707;
pub const FILES: usize = 1348;
pub const NAMES: usize = 1380;

pub const MOST_OPENS: u64 = 64;
const OPEN_FIELDS: usize = 9;
/// Fields of an open.
pub const FILE: usize = 4;
pub const SHARING: usize = 6;
pub const READ: usize = 7;
pub const SEEN: usize = 8;

const FILE_FIELDS: usize = 2;
/// Fields of a file.
pub const SIZE: usize = 0;
pub const CHANGES: usize = 1;

pub fn open_word(open: usize, field: usize) -> usize {
    OPENS + 1 + OPEN_FIELDS * open + field
}

/// The places of the opens in use.
pub fn opens_in_use(words: &[u64]) -> std::ops::Range<usize> {
    0..words[OPENS].min(MOST_OPENS) as usize
}

pub fn file_word(file: usize, field: usize) -> usize {
    FILES + FILE_FIELDS * file + field
}
