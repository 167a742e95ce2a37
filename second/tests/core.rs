//! The core commands READ, WRITE, LOCK_BYTE_RANGE and UNLOCK_BYTE_RANGE
//! (document 02, request 3). Requests and replies were worked out by hand from
//! source documents 000 and 004.

mod common;

use common::{held, hex, lock, read, share, status, unlock, write, World};
use second::builder::{core_read, core_write, lock_range, unlock_range, Ask};
use second::grammar::{read_chain, NotAChain, Why};
use second::host;
use second::rng::Rng;
use second::tables::{Lock, Range};

const DONE: (u8, u16) = (0, 0);
const CONFLICT: (u8, u16) = (1, 33);
const NOT_A_SENTENCE: (u8, u16) = (2, 1);
const FILE_FULL: (u8, u16) = (3, 39);

/// A message of UID 1, TID 1 and process 7 with these bytes from 32 on.
fn message(command: u8, rest: &str) -> Vec<u8> {
    let mut bytes = hex("FF534D42");
    bytes.push(command);
    bytes.resize(24, 0);
    bytes.extend(hex("0100 0700 0100 0000"));
    bytes.extend(hex(rest));
    bytes
}

impl World {
    /// The reply's block to one request of these bytes, and its Status.
    fn block(&mut self, command: u8, rest: &str) -> (Vec<u8>, (u8, u16)) {
        let reply = self.take(&message(command, rest)).unwrap();
        assert_eq!(reply[4], command);
        (reply[32..].to_vec(), status(&reply))
    }

    fn refuses(&mut self, message: &[u8], why: Why, command: u8) {
        let before = (self.tables.clone(), self.memory.clone());
        let reply = self.take(message).unwrap();
        assert_eq!(
            (status(&reply), &reply[32..]),
            (NOT_A_SENTENCE, &[0; 3][..])
        );
        assert!(before == (self.tables.clone(), self.memory.clone()));
        assert_eq!(read_chain(message), Err(NotAChain { why, command }));
    }

    fn size(&self) -> u64 {
        self.tables.files[0].size
    }
}

/// FIDs 1 (both), 2 (read), 3 (write) and 4 (both) of file 0, FID 5 of file 1.
fn five_opens(size: usize) -> World {
    let mut world = World::with_size(size);
    for (file, access) in [(0, 0), (0, 1), (0, 2), (1, 2)] {
        host::add_open(&mut world.tables, 1, 1, 7, file, access).unwrap();
    }
    world
}

/// "READ 5 words (count, eight zero bytes), bytes 01, length, data, also when
/// there is no data (ByteCount 3)".
#[test]
fn replies_to_read() {
    let mut world = World::with_size(100);
    // FID 1, count 3, offset 97, remaining 0xBEEF.
    let (block, done) = world.block(0x0A, "05 0100 0300 61000000 EFBE 0000");
    assert_eq!(done, DONE);
    assert_eq!(
        block,
        hex("05 0300 0000 0000 0000 0000 0600 01 0300 626364")
    );
    // "The count returned may be less than the count requested".
    let (block, done) = world.block(0x0A, "05 0100 FFFF 63000000 0000 0000");
    assert_eq!(done, DONE);
    assert_eq!(block, hex("05 0100 0000 0000 0000 0000 0400 01 0100 64"));
    let none = hex("05 0000 0000 0000 0000 0000 0300 01 0000");
    for rest in [
        "05 0100 0A00 64000000 0000 0000",
        "05 0100 0A00 FFFFFFFF 0000 0000",
        "05 0100 0000 00000000 0000 0000",
    ] {
        assert_eq!(world.block(0x0A, rest), (none.clone(), DONE));
    }
    let mut world = World::with_size(4096);
    let reply = world.ask(&[core_read(1, 0, 65_535)]);
    assert_eq!(reply[32..35], hex("05 0010"));
    assert_eq!(reply[43..48], hex("0310 01 0010"));
    assert_eq!(reply[48..], world.memory[..4096]);
}

/// "WRITE 1 word, the count".
#[test]
fn replies_to_write() {
    let mut world = World::with_size(3);
    // FID 1, count 2, offset 5, remaining 0xBEEF; 01, length 2, AA BB.
    let rest = "05 0100 0200 05000000 EFBE 0500 01 0200 AABB";
    assert_eq!(world.block(0x0B, rest), (hex("01 0200 0000"), DONE));
    assert_eq!(world.memory[..8], [1, 2, 3, 0, 0, 0xAA, 0xBB, 0xEE]);
    assert_eq!(world.size(), 7);
    let rest = "05 0100 0000 02000000 0000 0300 01 0000";
    assert_eq!(world.block(0x0B, rest), (hex("01 0000 0000"), DONE));
    assert_eq!(world.size(), 2);
    assert_eq!(world.memory[..8], [1, 2, 3, 0, 0, 0xAA, 0xBB, 0xEE]);
}

/// "LOCK, UNLOCK no words"; count before offset.
#[test]
fn replies_to_lock_and_unlock() {
    let mut world = World::with_size(3);
    let rest = "05 0100 04030201 78563412 0000";
    let plain = hex("00 0000");
    assert_eq!(world.block(0x0C, rest), (plain.clone(), DONE));
    let granted = Lock {
        fid: 1,
        process: 7,
        range: Range {
            offset: 0x1234_5678,
            length: 0x0102_0304,
        },
        shared: false,
    };
    assert_eq!(world.tables.locks.in_use(), [granted]);
    let (block, refused) = world.block(0x0C, rest);
    assert_eq!((block, refused), (plain.clone(), CONFLICT));
    assert_eq!(world.block(0x0D, rest), (plain.clone(), DONE));
    assert_eq!(world.tables.locks.count, 0);
    // "UNLOCK of what isn't locked is 1/158".
    assert_eq!(world.block(0x0D, rest), (plain, (1, 158)));
}

/// A chain of the worked LOCKING and a READ: the link names 0x0A at its place.
#[test]
fn read_after_locking() {
    let mut world = World::with_size(120);
    let locking = "08 0A003D00 0100 0000 00000000 0000 0100 0A00 0700 64000000 0A000000";
    let rest = format!("{locking} 05 0100 0400 64000000 0000 0000");
    let (block, done) = world.block(0x24, &rest);
    assert_eq!(done, DONE);
    let mut expected = hex("02 0A002700 0000");
    expected.extend(hex("05 0400 0000 0000 0000 0000 0700 01 0400 65666768"));
    assert_eq!(block, expected);
    assert_eq!(world.tables.locks.count, 1);
    let rest = format!("{locking} 05 0100 0200 64000000 0000 0500 01 0200 AABB");
    let write = rest
        .replacen("0A00", "0B00", 1)
        .replace("64000000 0A", "C8000000 0A");
    let (block, done) = world.block(0x24, &write);
    assert_eq!(done, DONE);
    assert_eq!(block, hex("02 0B002700 0000 01 0200 0000"));
    assert_eq!(world.memory[99..103], [100, 0xAA, 0xBB, 103]);
}

#[test]
fn refused_behind_locking() {
    let mut world = five_opens(10);
    let locks = |world: &World| world.tables.locks.count;
    for (ask, refusal) in [
        (core_read(9, 0, 1), (1, 6)),
        (core_write(9, 0, b"x"), (1, 6)),
        (core_read(3, 0, 1), (1, 5)),
        (core_write(2, 0, b"x"), (1, 5)),
        (core_write(2, 0, b""), (1, 5)),
        (core_write(1, 4096, b"x"), FILE_FULL),
        (core_write(1, 4097, b""), FILE_FULL),
    ] {
        let before = locks(&world);
        let range = [(7, 5000 + before as u64, 1)];
        let reply = world.ask(&[lock(1, &range), ask.clone()]);
        assert_eq!((reply[4], status(&reply)), (0x24, refusal));
        let mut expected = hex("02 FF002700 0000 00 0000");
        expected[1] = ask.command();
        assert_eq!(reply[32..], expected);
        assert_eq!(locks(&world), before + 1);
    }
    // The lock granted in the same chain bars them, and is the holder.
    let other = lock(1, &[(8, 100, 10)]);
    let reply = world.ask(&[other, core_read(1, 109, 1)]);
    assert_eq!(status(&reply), CONFLICT);
    assert_eq!(held(world.holder.unwrap()), (1, 8, 7, 100, 10));
    let own = share(1, &[(7, 200, 10)]);
    let reply = world.ask(&[own, core_write(1, 205, b"x")]);
    assert_eq!(status(&reply), CONFLICT);
    assert_eq!(held(world.holder.unwrap()), (1, 7, 8, 200, 10));
}

/// "Each stands alone in a message, save that READ and WRITE may end a chain
/// after LOCKING_ANDX."
#[test]
fn successions() {
    let mut world = World::with_size(120);
    let core = [
        core_read(1, 0, 4),
        core_write(1, 0, b"w"),
        lock_range(1, 0, 1),
        unlock_range(1, 0, 1),
    ];
    let firsts = [lock(1, &[]), read(1, 0, 4), write(1, 0, b"w"), Ask::Logoff];
    for first in firsts {
        for next in &core {
            let message = world.message(&[first.clone(), next.clone()]);
            let locking = first.command() == 0x24;
            if locking && [0x0A, 0x0B].contains(&next.command()) {
                let chain = read_chain(&message).unwrap();
                let commands: Vec<u8> = chain.iter().map(|block| block.command).collect();
                assert_eq!(commands, [0x24, next.command()]);
            } else {
                world.refuses(&message, Why::Follower, first.command());
            }
        }
    }
    // Third in a chain, behind WRITE_ANDX.
    let asks = [lock(1, &[]), write(1, 0, b"w"), core_read(1, 0, 4)];
    let message = world.message(&asks);
    world.refuses(&message, Why::Follower, 0x2F);
}

/// Nothing follows a core command, whatever its words look like.
#[test]
fn core_commands_end_the_chain() {
    let mut world = World::with_size(120);
    let close = "03 0100 00000000 0000";
    // FID 0x2E04: as AndXCommand it would be CLOSE.
    for command in [0x0A, 0x0C, 0x0D] {
        let rest = format!("05 042E 2D00 0000 0000 0000 0000 {close}");
        let (block, refused) = world.block(command, &rest);
        assert_eq!((block, refused), (hex("00 0000"), (1, 6)));
    }
    let rest = "05 0100 0400 00000000 0000 0000 FFFFFF";
    assert_eq!(world.block(0x0A, rest).1, DONE);
    assert_eq!(world.tables.opens.count, 1);
}

#[test]
fn words_and_byte_counts() {
    let mut world = World::with_size(120);
    for command in [0x0A, 0x0B, 0x0C, 0x0D] {
        for words in [0, 4, 6, 8, 10, 255] {
            let rest = format!("{words:02X} {}", "0000".repeat(300));
            world.refuses(&message(command, &rest), Why::WordCount, command);
        }
        let whole = message(command, "05 0100 0100 00000000 0000 0400 01 0100 AA");
        for (length, why) in [
            (35, Why::WordsOutside),
            (42, Why::WordsOutside),
            (43, Why::ByteCountOutside),
            (44, Why::ByteCountOutside),
            (45, Why::BytesOutside),
            (48, Why::BytesOutside),
        ] {
            world.refuses(&whole[..length], why, command);
        }
        if command != 0x0B {
            world.refuses(&whole, Why::ByteCount, command);
            let mut one = whole.clone();
            one[43] = 1;
            world.refuses(&one, Why::ByteCount, command);
        }
    }
}

/// "A data block not marked 0x01 or whose lengths disagree is 2/1."
#[test]
fn data_blocks() {
    let mut world = World::with_size(120);
    // Count at 35, ByteCount at 43, mark at 45, length at 46.
    let good = message(0x0B, "05 0100 0200 05000000 0000 0500 01 0200 AABB 0000");
    for mark in [0, 2, 3, 4, 5, 0x81, 0xFF] {
        let mut bad = good.clone();
        bad[45] = mark;
        world.refuses(&bad, Why::DataMark, 0x0B);
    }
    for (place, number, why) in [
        (35, 1, Why::ByteCount),
        (35, 3, Why::ByteCount),
        (35, 0, Why::ByteCount),
        (36, 1, Why::ByteCount),
        (43, 4, Why::ByteCount),
        (43, 6, Why::ByteCount),
        (43, 2, Why::ByteCount),
        (43, 1, Why::ByteCount),
        (43, 0, Why::ByteCount),
        (46, 1, Why::DataLength),
        (46, 3, Why::DataLength),
        (46, 0, Why::DataLength),
        (47, 1, Why::DataLength),
    ] {
        let mut bad = good.clone();
        bad[place] = number;
        world.refuses(&bad, why, 0x0B);
    }
    // ByteCount under 3, also as count + 3 in 16 bits.
    for byte_count in 0..3u16 {
        for count in [0, 0xFFFD + byte_count] {
            let mut bad = good.clone();
            bad[35..37].copy_from_slice(&count.to_le_bytes());
            bad[43..45].copy_from_slice(&byte_count.to_le_bytes());
            bad[46..48].copy_from_slice(&count.to_le_bytes());
            world.refuses(&bad, Why::ByteCount, 0x0B);
        }
    }
    // 2/1 comes before 2/91, and before the LOCKING in front is carried out.
    let mut bad = good.clone();
    (bad[28], bad[45]) = (9, 0);
    world.refuses(&bad, Why::DataMark, 0x0B);
    let mut bad = world.message(&[lock(1, &[(7, 0, 1)]), core_write(1, 0, b"w")]);
    let last = bad.len() - 4;
    assert_eq!(bad[last], 1);
    bad[last] = 0;
    world.refuses(&bad, Why::DataMark, 0x0B);
    assert_eq!(status(&world.take(&good).unwrap()), DONE);
}

/// 2/91, 2/5, 1/6, then 1/5 of reads and writes; locks need no access.
#[test]
fn refusals_in_order() {
    let asks = |fid| {
        [
            core_read(fid, 0, 1),
            core_write(fid, 0, b"w"),
            core_write(fid, 5000, b""),
            lock_range(fid, 0, 1),
            unlock_range(fid, 0, 1),
        ]
    };
    for place in 0..asks(1).len() {
        let mut world = five_opens(10);
        world.header.uid = 2;
        world.header.tid = 2;
        assert_eq!(world.status(asks(9)[place].clone()), (2, 91));
        world.header.uid = 1;
        assert_eq!(world.status(asks(9)[place].clone()), (2, 5));
        world.header.tid = 1;
        assert_eq!(world.status(asks(9)[place].clone()), (1, 6));
        world.connection += 1;
        assert_eq!(world.status(asks(1)[place].clone()), (2, 91));
    }
    let mut world = five_opens(10);
    assert_eq!(world.status(lock(4, &[(8, 0, 6000)])), DONE);
    // 1/5 before 1/33 and 3/39.
    assert_eq!(world.status(core_read(3, 0, 1)), (1, 5));
    assert_eq!(world.status(core_read(3, 0, 0)), (1, 5));
    assert_eq!(world.status(core_write(2, 4096, b"w")), (1, 5));
    assert_eq!(world.status(core_write(2, 5000, b"")), (1, 5));
    assert_eq!(world.status(core_write(2, 10, b"")), (1, 5));
    // 1/33 before 3/39.
    assert_eq!(world.status(core_write(1, 4096, b"w")), CONFLICT);
    assert_eq!(world.status(core_write(1, 5000, b"")), CONFLICT);
    assert_eq!(world.status(lock_range(2, 7000, 1)), DONE);
    assert_eq!(world.status(lock_range(3, 7001, 1)), DONE);
    assert_eq!(world.status(unlock_range(2, 7000, 1)), DONE);
}

#[test]
fn locks_and_unlocks() {
    let mut world = five_opens(10);
    assert_eq!(world.status(lock_range(1, 10, 10)), DONE);
    // Its own again, and another's over it: "the lock is exclusive".
    assert_eq!(world.status(lock_range(1, 10, 10)), CONFLICT);
    assert_eq!(world.status(lock_range(4, 19, 1)), CONFLICT);
    assert_eq!(held(world.holder.unwrap()), (1, 7, 0, 10, 10));
    assert_eq!(world.status(share(4, &[(7, 19, 1)])), CONFLICT);
    assert_eq!(world.status(lock_range(4, 20, 10)), DONE);
    assert_eq!(world.status(lock_range(5, 10, 10)), DONE);
    // Length 0, and the ends of 32 bits: no wrapping, no 1/87.
    assert_eq!(world.status(lock_range(4, 15, 0)), DONE);
    assert_eq!(world.status(lock_range(1, u32::MAX, u32::MAX)), DONE);
    assert_eq!(world.status(lock(4, &[(7, 1 << 32, 1)])), CONFLICT);
    assert_eq!(world.status(lock(4, &[(7, 0x1_FFFF_FFFE, 1)])), DONE);
    // FID, process, offset and length must all be the lock's.
    for ask in [
        unlock_range(4, 10, 10),
        unlock_range(1, 11, 9),
        unlock_range(1, 10, 9),
        unlock_range(1, 11, 10),
    ] {
        assert_eq!(world.status(ask), (1, 158));
    }
    world.header.pid = 65_536 + 7;
    assert_eq!(world.status(unlock_range(1, 10, 10)), (1, 158));
    world.header.pid = 7;
    // A lock of LOCKING_ANDX, and a shared one, are released too.
    assert_eq!(world.status(share(1, &[(7, 40, 5)])), DONE);
    assert_eq!(world.status(unlock_range(1, 40, 5)), DONE);
    assert_eq!(world.status(unlock(1, &[(7, 10, 10)])), DONE);
    assert_eq!(world.status(unlock_range(1, 10, 10)), (1, 158));
}

/// "The process from the header", in all its 32 bits.
#[test]
fn processes() {
    let mut world = five_opens(100);
    world.header.pid = 0x0009_0007;
    assert_eq!(world.status(lock_range(1, 0, 10)), DONE);
    assert_eq!(world.tables.locks.records[0].process, 0x0009_0007);
    assert_eq!(world.status(core_read(1, 0, 10)), DONE);
    assert_eq!(world.status(core_write(1, 0, b"own")), DONE);
    world.header.pid = 7;
    assert_eq!(world.status(core_read(1, 9, 1)), CONFLICT);
    assert_eq!(held(world.holder.unwrap()), (1, 0x0009_0007, 0, 0, 10));
    assert_eq!(world.status(core_write(1, 9, b"x")), CONFLICT);
    assert_eq!(world.status(lock_range(1, 0, 10)), CONFLICT);
    assert_eq!(world.status(unlock_range(1, 0, 10)), (1, 158));
    world.header.pid = 0x0009_0007;
    assert_eq!(world.status(unlock_range(1, 0, 10)), DONE);
}

#[test]
fn no_lock_record_free() {
    let mut world = World::with_size(10);
    let ranges: Vec<_> = (0..128).map(|place| (7, place * 10, 10)).collect();
    assert_eq!(world.status(lock(1, &ranges)), DONE);
    assert_eq!(world.status(lock_range(1, 1280, 1)), (1, 8));
    assert_eq!(world.status(lock_range(1, 1280, 0)), (1, 8));
    // The conflict comes before the want of a record.
    assert_eq!(world.status(lock_range(1, 1279, 1)), CONFLICT);
    assert_eq!(world.status(unlock_range(1, 50, 10)), DONE);
    assert_eq!(world.status(lock_range(1, 1280, 1)), DONE);
    assert_eq!(world.tables.locks.records[5].range.offset, 60);
    assert_eq!(world.tables.locks.records[127].range.offset, 1280);
}

#[test]
fn reads_and_writes_against_locks() {
    let mut world = five_opens(100);
    assert_eq!(world.status(lock(1, &[(7, 0, 10), (8, 10, 10)])), DONE);
    assert_eq!(world.status(share(1, &[(7, 20, 10)])), DONE);
    assert_eq!(world.status(core_read(1, 0, 10)), DONE);
    assert_eq!(world.status(core_read(1, 0, 11)), CONFLICT);
    assert_eq!(held(world.holder.unwrap()), (1, 8, 1, 10, 10));
    assert_eq!(world.status(core_read(1, 20, 10)), DONE);
    assert_eq!(world.status(core_write(1, 0, &[0; 10])), DONE);
    assert_eq!(world.status(core_write(1, 19, &[0])), CONFLICT);
    assert_eq!(world.status(core_write(1, 29, &[0])), CONFLICT);
    assert_eq!(held(world.holder.unwrap()), (1, 7, 2, 20, 10));
    assert_eq!(world.status(core_write(1, 30, &[0])), DONE);
    assert_eq!(world.status(core_read(4, 9, 1)), CONFLICT);
    assert_eq!(world.status(core_write(4, 9, &[0])), CONFLICT);
    assert_eq!(world.status(core_read(4, 5, 0)), DONE);
    assert_eq!(world.status(core_write(1, 4095, &[5])), DONE);
    assert_eq!(world.status(core_write(1, 4096, &[5])), FILE_FULL);
    assert_eq!(world.status(core_write(1, u32::MAX, &[5, 6])), FILE_FULL);
}

/// "With zeros where it grows and no byte changed where it shrinks".
#[test]
fn count_0_sets_the_size() {
    let mut world = World::with_size(6);
    let before = world.memory.clone();
    assert_eq!(world.status(core_write(1, 2, b"")), DONE);
    assert_eq!((world.size(), &world.memory), (2, &before));
    // Equal: done, nothing changes.
    assert_eq!(world.status(core_write(1, 2, b"")), DONE);
    assert_eq!((world.size(), &world.memory), (2, &before));
    assert_eq!(world.status(core_write(1, 4, b"")), DONE);
    assert_eq!(world.size(), 4);
    // "a later growth puts zeros from the then size on, so old bytes never show
    // again": 5 and 6 are past the size still.
    assert_eq!(world.memory[..7], [1, 2, 0, 0, 5, 6, 0xEE]);
    assert_eq!(world.status(core_write(1, 8, b"")), DONE);
    assert_eq!(world.memory[..9], [1, 2, 0, 0, 0, 0, 0, 0, 0xEE]);
    let reply = world.ask(&[core_read(1, 0, 20)]);
    assert_eq!(reply[45..], hex("01 0800 01 02 00 00 00 00 00 00"));
    assert_eq!(world.status(core_write(1, 4096, b"")), DONE);
    assert_eq!(world.size(), 4096);
    assert!(world.memory[2..4096].iter().all(|&byte| byte == 0));
    assert_eq!(world.memory[4096], 0xEE);
    assert_eq!(world.status(core_write(1, 4097, b"")), FILE_FULL);
    assert_eq!(world.status(core_write(1, u32::MAX, b"")), FILE_FULL);
    assert_eq!(world.status(core_write(1, 0, b"")), DONE);
    assert_eq!(world.size(), 0);
}

/// A growth by a write behind a shrink puts zeros over the old bytes too.
#[test]
fn old_bytes_never_show_again() {
    for grown in [write(1, 5, b"x"), core_write(1, 5, b"x")] {
        let mut world = World::with_size(6);
        assert_eq!(world.status(core_write(1, 1, b"")), DONE);
        assert_eq!(world.status(grown), DONE);
        assert_eq!(world.memory[..7], [1, 0, 0, 0, 0, b'x', 0xEE]);
        assert_eq!(world.size(), 6);
    }
    // WRITE_ANDX of length 0 changes no size, as before.
    let mut world = World::with_size(6);
    assert_eq!(world.status(write(1, 1, b"")), DONE);
    assert_eq!(world.size(), 6);
}

/// "for locks it covers from the smaller to the larger of old size and offset,
/// under the write rule"
#[test]
fn locks_between_the_sizes() {
    let mut world = five_opens(50);
    // Another owner's, through the same FID.
    assert_eq!(world.status(lock(1, &[(8, 20, 10)])), DONE);
    for (size, wanted) in [
        (29, CONFLICT),
        (20, CONFLICT),
        (0, CONFLICT),
        (30, DONE),
        (50, DONE),
        (30, DONE),
        (29, CONFLICT),
    ] {
        assert_eq!(world.status(core_write(1, size, b"")), wanted, "{size}");
    }
    assert_eq!(held(world.holder.unwrap()), (1, 8, 0, 20, 10));
    // Growing over a lock behind the size, and past 4,096 over one there.
    assert_eq!(world.status(lock(4, &[(7, 40, 1), (7, 4200, 1)])), DONE);
    assert_eq!(world.status(core_write(1, 41, b"")), CONFLICT);
    assert_eq!(held(world.holder.unwrap()), (4, 7, 1, 40, 1));
    assert_eq!(world.status(core_write(1, 40, b"")), DONE);
    assert_eq!(world.status(core_write(4, 4200, b"")), FILE_FULL);
    assert_eq!(world.status(core_write(1, 5000, b"")), CONFLICT);
    assert_eq!(world.status(unlock(4, &[(7, 40, 1)])), DONE);
    assert_eq!(world.status(core_write(1, 4200, b"")), FILE_FULL);
    assert_eq!(world.status(core_write(1, 4201, b"")), CONFLICT);
    assert_eq!(held(world.holder.unwrap()), (4, 7, 1, 4200, 1));
    // Locks of another file bar nothing.
    assert_eq!(world.status(lock(5, &[(7, 30, 100)])), DONE);
    assert_eq!(world.status(core_write(1, 45, b"")), DONE);
}

/// The writer's own exclusive locks bar no change of size, its shared ones do.
#[test]
fn own_locks_between_the_sizes() {
    for (ask, wanted) in [
        (lock(1, &[(7, 20, 10)]), DONE),
        (lock_range(1, 20, 10), DONE),
        (share(1, &[(7, 20, 10)]), CONFLICT),
        (lock(1, &[(7, 20, 0)]), DONE),
        (lock(4, &[(7, 20, 10)]), CONFLICT),
    ] {
        let mut world = five_opens(50);
        assert_eq!(world.status(ask), DONE);
        assert_eq!(world.status(core_write(1, 10, b"")), wanted);
        assert_eq!(world.status(core_write(1, 50, b"")), DONE);
    }
}

/// Equal sizes cover no byte, so no lock is in the way.
#[test]
fn equal_sizes_are_done_under_any_lock() {
    let mut world = five_opens(50);
    assert_eq!(world.status(lock(4, &[(8, 0, 1000)])), DONE);
    assert_eq!(world.status(core_write(1, 50, b"")), DONE);
    assert_eq!(world.status(core_write(1, 49, b"")), CONFLICT);
    assert_eq!(world.status(core_write(1, 51, b"")), CONFLICT);
}

/// A core command and its counterpart with equal fields, by lot. Locks are of
/// the header's process.
fn pair(rng: &mut Rng, pid: u16) -> (Ask, Ask) {
    let fid = 1 + rng.below(6) as u16;
    let (offset, length) = (rng.pick(&[0, 5, 10, 15, 20, 4095, 4096]), rng.below(12));
    let range = [(pid, u64::from(offset), length as u64)];
    match rng.below(4) {
        0 => (
            core_read(fid, offset, length as u16),
            read(fid, offset.into(), length as u16),
        ),
        1 => {
            let data = rng.bytes(1 + length);
            (
                core_write(fid, offset, &data),
                write(fid, offset.into(), &data),
            )
        }
        2 => (lock_range(fid, offset, length as u32), lock(fid, &range)),
        _ => (
            unlock_range(fid, offset, length as u32),
            unlock(fid, &range),
        ),
    }
}

/// "a core command and its counterpart with equal fields change the same things,
/// count 0 excepted"; the refusal and its holder are the same too.
#[test]
fn counterparts_change_the_same() {
    let mut rng = Rng::new(5);
    let (mut core, mut andx) = (five_opens(30), five_opens(30));
    let mut answers = std::collections::BTreeMap::new();
    for turn in 0..4000 {
        if turn % 50 == 0 {
            let size = core_write(1, rng.below(60) as u32, b"");
            core.ask(std::slice::from_ref(&size));
            andx.ask(&[size]);
        }
        let pid = rng.pick(&[7, 7, 7, 8]);
        (core.header.pid, andx.header.pid) = (pid.into(), pid.into());
        let (one, other) = pair(&mut rng, pid);
        let command = one.command();
        let answer = core.status(one);
        assert_eq!(answer, andx.status(other));
        assert!(core.tables == andx.tables && core.memory == andx.memory);
        assert_eq!(core.holder, andx.holder);
        *answers.entry((command, answer)).or_insert(0) += 1;
    }
    // Done and refused, each often.
    for command in 0x0A..=0x0D {
        for answer in [DONE, (1, 6)] {
            assert!(answers[&(command, answer)] > 20, "{answers:?}");
        }
    }
    assert!(answers[&(0x0A, CONFLICT)] > 20 && answers[&(0x0B, CONFLICT)] > 20);
    assert!(answers[&(0x0C, CONFLICT)] > 20 && answers[&(0x0D, (1, 158))] > 20);
}
