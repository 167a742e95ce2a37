//! A reader of chains, from "The grammar of a chain" of document 01 and the rows
//! of document 02, requests 3 and 6.
//!
//! Sentences of that paper are quoted at the test that they became. All sums
//! are in `usize`, wide enough that none of them can wrap: the largest is a
//! place in the message plus 2 * 255 words plus a 16-bit byte count.

pub const CLOSE: u8 = 0x04;
pub const READ: u8 = 0x0A;
pub const WRITE: u8 = 0x0B;
pub const LOCK_BYTE_RANGE: u8 = 0x0C;
pub const UNLOCK_BYTE_RANGE: u8 = 0x0D;
pub const PROCESS_EXIT: u8 = 0x11;
pub const LOCKING_ANDX: u8 = 0x24;
pub const OPEN_ANDX: u8 = 0x2D;
pub const READ_ANDX: u8 = 0x2E;
pub const WRITE_ANDX: u8 = 0x2F;
pub const TREE_DISCONNECT: u8 = 0x71;
pub const LOGOFF_ANDX: u8 = 0x74;

/// "Requests served", with the core commands and OPEN_ANDX of document 02.
pub const SERVED: [u8; 12] = [
    CLOSE,
    READ,
    WRITE,
    LOCK_BYTE_RANGE,
    UNLOCK_BYTE_RANGE,
    PROCESS_EXIT,
    LOCKING_ANDX,
    OPEN_ANDX,
    READ_ANDX,
    WRITE_ANDX,
    TREE_DISCONNECT,
    LOGOFF_ANDX,
];

/// The core commands, which name no next block.
pub const CORE: [u8; 4] = [READ, WRITE, LOCK_BYTE_RANGE, UNLOCK_BYTE_RANGE];

/// What a data block begins with: "a data block not marked 0x01 [...] is 2/1".
pub const DATA_MARK: u8 = 0x01;
/// Mark and length of a data block, before its data.
pub const DATA_BLOCK_HEAD: usize = 3;

/// AndXCommand of the last block: "0xFF ends the chain".
const NO_MORE: u8 = 0xFF;

/// Length of the header; "the first [block] is at 32".
const HEADER: usize = 32;

/// One block of a chain. `offset` counts from the header's start; `length`
/// is from WordCount to the last of the bytes.
#[derive(Clone, Copy, Debug, PartialEq, Eq)]
pub struct Block {
    pub command: u8,
    pub offset: usize,
    pub length: usize,
}

/// Why a message is not a chain. The paper has one answer for all of these;
/// the reasons are told apart only to count that each was met.
#[derive(Clone, Copy, Debug, PartialEq, Eq, PartialOrd, Ord)]
pub enum Why {
    /// The header's command is not served.
    NotServed,
    /// The block's WordCount is not inside the message.
    StartOutside,
    /// WordCount is not one of the table's.
    WordCount,
    /// The words are not all inside the message.
    WordsOutside,
    /// ByteCount is not wholly inside the message.
    ByteCountOutside,
    /// The bytes are not all inside the message.
    BytesOutside,
    /// ByteCount is not the table's.
    ByteCount,
    /// DataOffset is before the byte area.
    DataBefore,
    /// DataOffset + DataLength is past the byte area's end.
    DataPast,
    /// The data block is not marked 0x01.
    DataMark,
    /// The data block's length is not the count.
    DataLength,
    /// The byte area does not end with the zero byte behind a name.
    NameEnd,
    /// The name has a zero byte.
    NameZero,
    /// AndXCommand is not in the table's last column.
    Follower,
    /// AndXOffset is before the end of its own block.
    AndXOffset,
}

impl Why {
    pub const ALL: [Why; 15] = [
        Why::NotServed,
        Why::StartOutside,
        Why::WordCount,
        Why::WordsOutside,
        Why::ByteCountOutside,
        Why::BytesOutside,
        Why::ByteCount,
        Why::DataBefore,
        Why::DataPast,
        Why::DataMark,
        Why::DataLength,
        Why::NameEnd,
        Why::NameZero,
        Why::Follower,
        Why::AndXOffset,
    ];
}

/// The reason, with the command of the block at which the reading ended.
#[derive(Clone, Copy, Debug, PartialEq, Eq, PartialOrd, Ord)]
pub struct NotAChain {
    pub why: Why,
    pub command: u8,
}

/// Reads the chain of a message that row 1 does not drop.
pub fn read_chain(message: &[u8]) -> Result<Vec<Block>, NotAChain> {
    blocks(message).collect()
}

/// The blocks of a message that row 1 does not drop, read one by one. It is
/// a chain if none of them is an error; the first error is the last item.
pub fn blocks(message: &[u8]) -> Blocks<'_> {
    // "first the block at 32 with the header's command". Command is at 4.
    Blocks {
        message,
        next: Some((message[4], HEADER)),
    }
}

/// What `blocks` gives: the message, with command and offset of the block to
/// be read next. Each next offset is past the one before, so this ends.
#[derive(Clone, Debug)]
pub struct Blocks<'m> {
    message: &'m [u8],
    next: Option<(u8, usize)>,
}

impl Iterator for Blocks<'_> {
    type Item = Result<Block, NotAChain>;

    fn next(&mut self) -> Option<Self::Item> {
        let (command, offset) = self.next.take()?;
        // "Known: a request served"; an unserved command is `not a chain` in
        // a listing. It can be the header's only: no other may follow.
        if !SERVED.contains(&command) {
            let why = Why::NotServed;
            return Some(Err(NotAChain { why, command }));
        }
        match read_block(self.message, command, offset) {
            Ok((block, next)) => {
                self.next = next;
                Some(Ok(block))
            }
            Err(why) => Some(Err(NotAChain { why, command })),
        }
    }
}

/// Reads one block; gives it with the command and offset of the next one.
fn read_block(
    message: &[u8],
    command: u8,
    offset: usize,
) -> Result<(Block, Option<(u8, usize)>), Why> {
    // "A block is WordCount, the words, ByteCount, the bytes, all inside the
    // message."
    let word_count = *message.get(offset).ok_or(Why::StartOutside)?;
    // Column "Words".
    if !word_counts(command).contains(&word_count) {
        return Err(Why::WordCount);
    }
    let words_start = offset + 1;
    let words_end = words_start + 2 * usize::from(word_count);
    let words = message
        .get(words_start..words_end)
        .ok_or(Why::WordsOutside)?;
    let area_start = words_end + 2;
    let byte_count = message
        .get(words_end..area_start)
        .map(|field| u16_at(field, 0))
        .ok_or(Why::ByteCountOutside)?;
    let end = area_start + byte_count;
    if end > message.len() {
        return Err(Why::BytesOutside);
    }

    // Column "Bytes".
    match command {
        LOCKING_ANDX => {
            // Words: AndX 4, FID 2, type 1 (at 6), oplock 1, timeout 4,
            // unlocks 2 (at 12), locks 2 (at 14). "(unlocks + locks) × 10,
            // or × 20 with type bit 0x10"; the other type bits are no matter
            // of the grammar.
            let range = if words[6] & 0x10 != 0 { 20 } else { 10 };
            let ranges = u16_at(words, 12) + u16_at(words, 14);
            if byte_count != ranges * range {
                return Err(Why::ByteCount);
            }
        }
        WRITE_ANDX => {
            // Words: AndX 4, FID 2, offset 4, timeout 4, mode 2,
            // remaining 2, reserved 2, length 2 (at 20), data offset 2 (at
            // 22). "DataOffset is not before the byte area and DataOffset +
            // DataLength not past its end, also for length 0."
            let data_length = u16_at(words, 20);
            let data_offset = u16_at(words, 22);
            if data_offset < area_start {
                return Err(Why::DataBefore);
            }
            if data_offset + data_length > end {
                return Err(Why::DataPast);
            }
        }
        WRITE => check_data_block(words, &message[area_start..end])?,
        OPEN_ANDX => check_name(&message[area_start..end])?,
        _ => {
            if byte_count != 0 {
                return Err(Why::ByteCount);
            }
        }
    }

    let block = Block {
        command,
        offset,
        length: end - offset,
    };
    // "it ends at 0xFF or at a request not named ANDX".
    if !is_andx(command) {
        return Ok((block, None));
    }
    // "AndX words begin AndXCommand (1), reserved (1), AndXOffset (2)."
    let next_command = words[0];
    let next_offset = u16_at(words, 2);
    // "0xFF ends the chain and the offset is ignored."
    if next_command == NO_MORE {
        return Ok((block, None));
    }
    // "Otherwise the command must be in the last column"
    if !followers(command).contains(&next_command) {
        return Err(Why::Follower);
    }
    // "and the offset, from the header's start, at least the end of this
    // block." Bytes skipped are free.
    if next_offset < end {
        return Err(Why::AndXOffset);
    }
    Ok((block, Some((next_command, next_offset))))
}

/// "WRITE: count word, the data block's length and ByteCount − 3 are all equal,
/// else 2/1 [...]; ByteCount under 3 likewise." Words: FID 2, count 2 (at 2),
/// offset 4, remaining 2.
fn check_data_block(words: &[u8], area: &[u8]) -> Result<(), Why> {
    let count = u16_at(words, 2);
    if area.len() != count + DATA_BLOCK_HEAD {
        return Err(Why::ByteCount);
    }
    if area[0] != DATA_MARK {
        return Err(Why::DataMark);
    }
    if u16_at(area, 1) != count {
        return Err(Why::DataLength);
    }
    Ok(())
}

/// "The byte area is a name of any length, even none, without zero bytes, then
/// one zero byte" (document 02, request 6).
fn check_name(area: &[u8]) -> Result<(), Why> {
    let [name @ .., 0] = area else {
        return Err(Why::NameEnd);
    };
    match name.contains(&0) {
        true => Err(Why::NameZero),
        false => Ok(()),
    }
}

/// Column "Words".
fn word_counts(command: u8) -> &'static [u8] {
    match command {
        LOCKING_ANDX => &[8],
        OPEN_ANDX => &[15],
        READ_ANDX => &[10, 12],
        WRITE_ANDX => &[12, 14],
        CLOSE => &[3],
        READ | WRITE | LOCK_BYTE_RANGE | UNLOCK_BYTE_RANGE => &[5],
        LOGOFF_ANDX => &[2],
        TREE_DISCONNECT | PROCESS_EXIT => &[0],
        _ => &[],
    }
}

/// Column "May be followed by", "READ and WRITE may end a chain after
/// LOCKING_ANDX", and of OPEN_ANDX "READ_ANDX may follow".
fn followers(command: u8) -> &'static [u8] {
    match command {
        LOCKING_ANDX => &[READ_ANDX, WRITE_ANDX, READ, WRITE],
        READ_ANDX => &[CLOSE],
        WRITE_ANDX => &[WRITE_ANDX, READ_ANDX, CLOSE],
        OPEN_ANDX => &[READ_ANDX],
        _ => &[],
    }
}

/// The requests named ANDX. Their blocks name the next one, in replies too.
pub fn is_andx(command: u8) -> bool {
    matches!(
        command,
        LOCKING_ANDX | OPEN_ANDX | READ_ANDX | WRITE_ANDX | LOGOFF_ANDX
    )
}

/// The little-endian 16-bit number at `place`.
fn u16_at(bytes: &[u8], place: usize) -> usize {
    usize::from(bytes[place]) + 256 * usize::from(bytes[place + 1])
}
