//! The paper's own examples, and small messages whose results were worked
//! out by hand from document 01.

use second::grammar::{NotAChain, Why};
use second::listing::{answer, listing, Answer, Dropped};
use second::messages::{all, worked};

/// Bytes from hex digits; spaces are free.
fn hex(digits: &str) -> Vec<u8> {
    let digits: Vec<u8> = digits.bytes().filter(|&b| b != b' ').collect();
    digits
        .chunks(2)
        .map(|pair| u8::from_str_radix(std::str::from_utf8(pair).unwrap(), 16).unwrap())
        .collect()
}

/// A header of zeros with the command, then the given bytes from 32 on.
fn message(command: u8, rest: &str) -> Vec<u8> {
    let mut bytes = hex("FF 53 4D 42");
    bytes.push(command);
    bytes.resize(32, 0);
    bytes.extend(hex(rest));
    bytes
}

fn lists(message: &[u8], lines: &str) {
    assert_eq!(listing(message), lines);
}

fn refused(message: &[u8], why: Why, command: u8) {
    assert_eq!(
        answer(message),
        Answer::NotAChain(NotAChain { why, command })
    );
    assert_eq!(listing(message), "not a chain\n");
}

fn dropped(message: &[u8], why: Dropped) {
    assert_eq!(answer(message), Answer::Dropped(why));
    assert_eq!(listing(message), "dropped\n");
}

/// A READ of 10 words, the last of its chain: 23 bytes.
const READ10: &str = "0A FF000000 0100 00000000 0A00 0000 00000000 0000 0000";
/// A READ of 12 words, the last of its chain: 27 bytes.
const READ12: &str = "0C FF000000 0100 00000000 0A00 0000 00000000 0000 00000000 0000";
/// 9 bytes.
const CLOSE: &str = "03 0100 00000000 0000";
/// READ, LOCK or UNLOCK: 13 bytes. FID 1, then eight bytes of numbers.
const CORE: &str = "05 0100 0A00 0000 0000 0000 0000";
/// WRITE of two bytes: 18 bytes.
const CORE_WRITE: &str = "05 0100 0200 00000000 0000 0500 01 0200 AABB";

#[test]
fn worked_listing_and_case_1() {
    assert_eq!(worked().len(), 84);
    lists(&worked(), "1 24 32 29\n2 2E 61 23\nend\n");
}

#[test]
fn case_2() {
    let mut bytes = worked();
    assert_eq!(bytes[35], 61);
    bytes[35] = 60;
    refused(&bytes, Why::AndXOffset, 0x24);
}

#[test]
fn case_3() {
    let mut bytes = worked();
    bytes[35] = 62;
    bytes.insert(61, 0);
    assert_eq!(bytes.len(), 85);
    lists(&bytes, "1 24 32 29\n2 2E 62 23\nend\n");
}

#[test]
fn one_block_of_each() {
    lists(&message(0x71, "00 0000"), "1 71 32 3\nend\n");
    lists(&message(0x11, "00 0000"), "1 11 32 3\nend\n");
    lists(&message(0x74, "02 FF000000 0000"), "1 74 32 7\nend\n");
    // The offset after 0xFF and the reserved byte are not looked at.
    lists(&message(0x74, "02 FF99FFFF 0000"), "1 74 32 7\nend\n");
    lists(&message(0x04, CLOSE), "1 04 32 9\nend\n");
    lists(&message(0x2E, READ10), "1 2E 32 23\nend\n");
    lists(&message(0x2E, READ12), "1 2E 32 27\nend\n");
    lists(&message(0x0A, CORE), "1 0A 32 13\nend\n");
    lists(&message(0x0B, CORE_WRITE), "1 0B 32 18\nend\n");
    lists(&message(0x0C, CORE), "1 0C 32 13\nend\n");
    lists(&message(0x0D, CORE), "1 0D 32 13\nend\n");
    // Bytes after the last block are free.
    lists(&message(0x71, "00 0000 FFFFFF"), "1 71 32 3\nend\n");
    // CLOSE is not named ANDX: its words name no next block.
    lists(&message(0x04, "03 2E00 29000000 0000"), "1 04 32 9\nend\n");
}

/// The LOCKING of the worked message, with a core command at 61.
#[test]
fn core_commands_after_locking() {
    let chain = |command: u8, block: &str| {
        let mut bytes = worked()[..61].to_vec();
        bytes[33] = command;
        bytes.extend(hex(block));
        bytes
    };
    lists(&chain(0x0A, CORE), "1 24 32 29\n2 0A 61 13\nend\n");
    lists(&chain(0x0B, CORE_WRITE), "1 24 32 29\n2 0B 61 18\nend\n");
    for command in [0x0C, 0x0D] {
        refused(&chain(command, CORE), Why::Follower, 0x24);
    }
}

#[test]
fn three_blocks_with_a_free_byte() {
    // WRITE of nothing 32 to 59, a free byte, READ 60 to 83, CLOSE 83 to 92.
    let bytes = message(
        0x2F,
        "0C 2E003C00 0100 00000000 00000000 0000 0000 0000 0000 3B00 0000 \
         0A \
         0A 04005300 0100 00000000 0A00 0000 00000000 0000 0000 \
         03 0100 00000000 0000",
    );
    assert_eq!(bytes.len(), 92);
    lists(&bytes, "1 2F 32 27\n2 2E 60 23\n3 04 83 9\nend\n");
    refused(&bytes[..91], Why::ByteCountOutside, 0x04);
    refused(&bytes[..89], Why::WordsOutside, 0x04);
    refused(&bytes[..83], Why::StartOutside, 0x04);
    refused(&bytes[..82], Why::ByteCountOutside, 0x2E);
}

#[test]
fn dropped_by_row_1() {
    let good = message(0x71, "00 0000");
    assert_eq!(good.len(), 35);
    dropped(&[], Dropped::Short);
    dropped(&good[..34], Dropped::Short);
    for (size, lines) in [(8192, "1 71 32 3\nend\n"), (8193, "dropped\n")] {
        let mut long = good.clone();
        long.resize(size, 0);
        lists(&long, lines);
    }
    for size in [8193, 20_000, 65_536 + 35, 70_000] {
        let mut long = good.clone();
        long.resize(size, 0);
        dropped(&long, Dropped::Long);
    }
    for place in 0..4 {
        let mut bytes = good.clone();
        bytes[place] ^= 1;
        dropped(&bytes, Dropped::Protocol);
    }
    let mut flags = good.clone();
    flags[9] = 0x80;
    dropped(&flags, Dropped::Flags);
    flags[9] = 0x7F;
    lists(&flags, "1 71 32 3\nend\n");
    // Row 1 comes before the command.
    flags[4] = 0x72;
    flags[9] = 0xFF;
    dropped(&flags, Dropped::Flags);
}

#[test]
fn not_served() {
    // NEGOTIATE, OPEN, and 0xFF.
    refused(&message(0x72, "00 0000"), Why::NotServed, 0x72);
    refused(&message(0x02, READ10), Why::NotServed, 0x02);
    refused(&message(0xFF, "00 0000"), Why::NotServed, 0xFF);
}

#[test]
fn start_outside() {
    // AndXOffset 84 of 84 bytes, then far past them.
    let mut bytes = worked();
    bytes[35] = 84;
    refused(&bytes, Why::StartOutside, 0x2E);
    bytes[36] = 0xFF;
    refused(&bytes, Why::StartOutside, 0x2E);
    // At 83, the last byte, 00 is no word count of a READ.
    bytes[35] = 83;
    bytes[36] = 0;
    refused(&bytes, Why::WordCount, 0x2E);
}

#[test]
fn word_count() {
    refused(&message(0x71, "01 0000 0000"), Why::WordCount, 0x71);
    refused(&message(0x11, "01 0000 0000"), Why::WordCount, 0x11);
    refused(&message(0x74, "00 0000"), Why::WordCount, 0x74);
    refused(
        &message(0x74, "03 FF00 0000 0000 0000"),
        Why::WordCount,
        0x74,
    );
    refused(&message(0x04, "02 0100 0000 0000"), Why::WordCount, 0x04);
    refused(&message(0x04, "00 0000"), Why::WordCount, 0x04);
    // READ of 11 words, WRITE of 13 words, LOCKING of 7 words.
    let words = |count: usize| format!("{count:02X} FF00{}", "0000".repeat(count));
    refused(&message(0x2E, &words(11)), Why::WordCount, 0x2E);
    refused(&message(0x2E, &words(14)), Why::WordCount, 0x2E);
    refused(&message(0x2F, &words(13)), Why::WordCount, 0x2F);
    refused(&message(0x2F, &words(10)), Why::WordCount, 0x2F);
    refused(&message(0x24, &words(7)), Why::WordCount, 0x24);
}

#[test]
fn words_or_counts_outside() {
    // LOGOFF: words 33 to 37, ByteCount 37 to 39.
    let logoff = message(0x74, "02 FF000000 0000");
    refused(&logoff[..35], Why::WordsOutside, 0x74);
    refused(&logoff[..36], Why::WordsOutside, 0x74);
    refused(&logoff[..37], Why::ByteCountOutside, 0x74);
    refused(&logoff[..38], Why::ByteCountOutside, 0x74);
    // CLOSE: words 33 to 39, ByteCount 39 to 41.
    let close = message(0x04, CLOSE);
    refused(&close[..38], Why::WordsOutside, 0x04);
    refused(&close[..40], Why::ByteCountOutside, 0x04);
    // READ of 12 words: 33 to 57.
    let read = message(0x2E, READ12);
    refused(&read[..56], Why::WordsOutside, 0x2E);
    refused(&read[..58], Why::ByteCountOutside, 0x2E);
}

#[test]
fn bytes_outside() {
    refused(&message(0x71, "00 0100"), Why::BytesOutside, 0x71);
    refused(&message(0x11, "00 0001"), Why::BytesOutside, 0x11);
    refused(&message(0x74, "02 FF000000 FFFF"), Why::BytesOutside, 0x74);
    // The range of the worked message's LOCKING, cut by one byte.
    let mut lock = worked();
    lock[33] = 0xFF;
    lists(&lock[..61], "1 24 32 29\nend\n");
    refused(&lock[..60], Why::BytesOutside, 0x24);
}

#[test]
fn byte_count_not_zero() {
    refused(&message(0x71, "00 0100 AA"), Why::ByteCount, 0x71);
    refused(&message(0x11, "00 0100 AA"), Why::ByteCount, 0x11);
    refused(
        &message(0x74, "02 FF000000 0200 AAAA"),
        Why::ByteCount,
        0x74,
    );
    refused(
        &message(0x04, "03 0100 00000000 0100 AA"),
        Why::ByteCount,
        0x04,
    );
    let read = "0A FF000000 0100 00000000 0A00 0000 00000000 0000 0100 AA";
    refused(&message(0x2E, read), Why::ByteCount, 0x2E);
}

/// LOCKING with the given type, counts and ByteCount, and that many bytes.
fn locking(kind: u8, unlocks: u16, locks: u16, byte_count: u16) -> Vec<u8> {
    let mut bytes = message(0x24, "08 FF000000 0100");
    bytes.extend([kind, 0, 0, 0, 0, 0]);
    bytes.extend(unlocks.to_le_bytes());
    bytes.extend(locks.to_le_bytes());
    bytes.extend(byte_count.to_le_bytes());
    bytes.resize(bytes.len() + usize::from(byte_count), 0);
    bytes
}

#[test]
fn lock_ranges() {
    // The block is 19 bytes and its ranges.
    lists(&locking(0x00, 0, 0, 0), "1 24 32 19\nend\n");
    lists(&locking(0x10, 0, 0, 0), "1 24 32 19\nend\n");
    lists(&locking(0x00, 1, 0, 10), "1 24 32 29\nend\n");
    lists(&locking(0x01, 1, 2, 30), "1 24 32 49\nend\n");
    lists(&locking(0x10, 0, 1, 20), "1 24 32 39\nend\n");
    lists(&locking(0x11, 2, 1, 60), "1 24 32 79\nend\n");
    // 2/65535 is not a matter of the grammar.
    lists(&locking(0x02, 0, 1, 10), "1 24 32 29\nend\n");
    lists(&locking(0xEF, 0, 1, 10), "1 24 32 29\nend\n");
    lists(&locking(0xFF, 0, 1, 20), "1 24 32 39\nend\n");
    refused(&locking(0x00, 0, 1, 20), Why::ByteCount, 0x24);
    refused(&locking(0x10, 0, 1, 10), Why::ByteCount, 0x24);
    refused(&locking(0x00, 0, 1, 9), Why::ByteCount, 0x24);
    refused(&locking(0x00, 0, 1, 11), Why::ByteCount, 0x24);
    refused(&locking(0x00, 1, 1, 10), Why::ByteCount, 0x24);
    refused(&locking(0x00, 0, 0, 10), Why::ByteCount, 0x24);
    // 65,536 ranges are not none; 32,768 * 10 is not 0.
    refused(&locking(0x00, 0xFFFF, 1, 0), Why::ByteCount, 0x24);
    refused(&locking(0x00, 0x8000, 0, 0), Why::ByteCount, 0x24);
    refused(&locking(0x10, 0, 0x4000, 0), Why::ByteCount, 0x24);
}

/// WRITE with two bytes in its byte area: at 59 for 12 words, 63 for 14.
fn write(words: u8, length: u16, data_offset: u16) -> Vec<u8> {
    let mut bytes = message(0x2F, "");
    bytes.push(words);
    bytes.extend(hex("FF000000 0100 00000000 00000000 0000 0000 0000"));
    bytes.extend(length.to_le_bytes());
    bytes.extend(data_offset.to_le_bytes());
    if words == 14 {
        bytes.extend([0; 4]);
    }
    bytes.extend(hex("0200 AABB"));
    // Free bytes, no part of the byte area.
    bytes.extend([0; 5]);
    bytes
}

#[test]
fn write_data() {
    for (words, area, lines) in [(12, 59, "1 2F 32 29\nend\n"), (14, 63, "1 2F 32 33\nend\n")] {
        lists(&write(words, 2, area), lines);
        lists(&write(words, 1, area), lines);
        lists(&write(words, 1, area + 1), lines);
        lists(&write(words, 0, area), lines);
        lists(&write(words, 0, area + 2), lines);
        refused(&write(words, 2, area - 1), Why::DataBefore, 0x2F);
        refused(&write(words, 0, area - 1), Why::DataBefore, 0x2F);
        refused(&write(words, 0, 0), Why::DataBefore, 0x2F);
        refused(&write(words, 3, area), Why::DataPast, 0x2F);
        refused(&write(words, 2, area + 1), Why::DataPast, 0x2F);
        refused(&write(words, 0, area + 3), Why::DataPast, 0x2F);
        refused(&write(words, 0xFFFF, area), Why::DataPast, 0x2F);
        refused(&write(words, 0xFFFF, 0xFFFF), Why::DataPast, 0x2F);
    }
}

#[test]
fn followers() {
    // READ then READ; LOCKING then CLOSE, then LOCKING; LOGOFF then CLOSE.
    let read = "0A 2E003700 0100 00000000 0A00 0000 00000000 0000 0000";
    refused(
        &message(0x2E, &format!("{read} {READ10}")),
        Why::Follower,
        0x2E,
    );
    let mut lock = worked();
    for command in [0x04, 0x24, 0x11, 0x71, 0x74, 0x00, 0xFE] {
        lock[33] = command;
        refused(&lock, Why::Follower, 0x24);
    }
    for command in ["04", "11", "71", "74", "00"] {
        let logoff = format!("02 {command}002700 0000 {CLOSE}");
        refused(&message(0x74, &logoff), Why::Follower, 0x74);
    }
    for command in [0x24, 0x11, 0x71, 0x74] {
        let mut bytes = write(12, 2, 59);
        bytes[33] = command;
        bytes[35] = 61;
        refused(&bytes, Why::Follower, 0x2F);
    }
}

#[test]
fn andx_offsets() {
    // READ 32 to 55, CLOSE at 55; then 54; then itself; then 0.
    let chain = |offset: u8| {
        let read = format!("0A 0400{offset:02X}00 0100 00000000 0A00 0000 00000000 0000 0000");
        message(0x2E, &format!("{read} {CLOSE}"))
    };
    lists(&chain(55), "1 2E 32 23\n2 04 55 9\nend\n");
    refused(&chain(54), Why::AndXOffset, 0x2E);
    refused(&chain(32), Why::AndXOffset, 0x2E);
    refused(&chain(0), Why::AndXOffset, 0x2E);
    // A WRITE that names itself as the next one.
    let mut bytes = write(12, 2, 59);
    bytes[33] = 0x2F;
    bytes[35] = 32;
    refused(&bytes, Why::AndXOffset, 0x2F);
}

/// The block at AndXOffset is read, not the one straight after.
#[test]
fn decoy() {
    let read = "0A 04004000 0100 00000000 0A00 0000 00000000 0000 0000";
    let bytes = message(0x2E, &format!("{read} {CLOSE} {CLOSE}"));
    lists(&bytes, "1 2E 32 23\n2 04 64 9\nend\n");
}

#[test]
fn messages_are_as_made() {
    let messages = all();
    assert!(messages.len() >= 4000);
    for made in &messages {
        let lines = listing(&made.bytes);
        assert!(
            made.expected.allows(&lines),
            "{}: {:02X?}\n{lines}{:?}",
            made.kind,
            made.bytes,
            made.expected
        );
    }
}

#[test]
fn messages_are_the_same_each_time() {
    let first = all();
    let second = all();
    assert_eq!(first.len(), second.len());
    assert!(first.iter().zip(&second).all(|(a, b)| a.bytes == b.bytes));
}
