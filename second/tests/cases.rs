//! Document 01's cases 1 to 14, and the order of refusals, by messages.

mod common;

use common::{hex, lock, read, share, status, unlock, write, World};
use second::builder::{locking, Ask};
use second::host;
use second::messages::worked;
use second::refusals::CallRefusal;
use second::tables::{Lock, Range};

const DONE: (u8, u16) = (0, 0);
const CONFLICT: (u8, u16) = (1, 33);

/// The worked message has TID 1, PID 7, UID 1, MID 3 in its header.
#[test]
fn cases_1_and_13() {
    let mut world = World::with_size(120);
    let reply = world.take(&worked()).unwrap();
    let mut expected = hex("FF534D42 24 00000000 80 0000 0000");
    expected.extend([0; 10]);
    expected.extend(hex("0100 0700 0100 0300"));
    expected.extend(hex("02 2E002700 0000"));
    expected.extend(hex("0C FF000000 FFFF 0000 0000 0A00 4200"));
    expected.extend([0; 10]);
    expected.extend(hex("0A00"));
    expected.extend(101..=110);
    assert_eq!(reply, expected);
    assert_eq!(reply.len(), 76);
    assert_eq!(u16::from_le_bytes([reply[52], reply[53]]), 66);
    let granted = Lock {
        fid: 1,
        process: 7,
        range: Range {
            offset: 100,
            length: 10,
        },
        shared: false,
    };
    assert_eq!(world.tables.locks.in_use(), [granted]);
}

#[test]
fn case_2() {
    let mut world = World::with_size(120);
    let mut message = worked();
    message[35] = 60;
    let reply = world.take(&message).unwrap();
    assert_eq!(status(&reply), (2, 1));
    assert_eq!(reply[32..], [0, 0, 0]);
    assert_eq!(world.tables.locks.count, 0);
}

#[test]
fn case_3() {
    let mut world = World::with_size(120);
    let mut message = worked();
    message[35] = 62;
    message.insert(61, 0xAA);
    let reply = world.take(&message).unwrap();
    assert_eq!((status(&reply), reply.len()), (DONE, 76));
}

#[test]
fn cases_4_to_8() {
    let mut world = World::with_size(0);
    assert_eq!(world.status(lock(1, &[(7, 0, 10)])), DONE);
    assert_eq!(world.status(lock(1, &[(8, 10, 10)])), DONE);
    assert_eq!(world.status(lock(1, &[(8, 9, 1)])), CONFLICT);
    assert_eq!(world.status(share(1, &[(8, 100, 10)])), DONE);
    assert_eq!(world.status(share(1, &[(8, 105, 10)])), DONE);
    assert_eq!(world.status(lock(1, &[(7, 0, 10)])), CONFLICT);
    assert_eq!(world.status(lock(1, &[(8, 5, 0)])), DONE);
    assert_eq!(world.tables.locks.count, 5);
}

#[test]
fn cases_9_and_10() {
    let mut world = World::with_size(0);
    assert_eq!(world.status(lock(1, &[(7, u64::MAX, 2)])), (1, 87));
    assert_eq!(world.status(lock(1, &[(7, u64::MAX, 1)])), DONE);
    assert_eq!(world.status(lock(1, &[(8, u64::MAX, 1)])), CONFLICT);
    assert_eq!(world.status(lock(1, &[(8, 1 << 63, 1 << 63)])), CONFLICT);
    assert_eq!(world.status(lock(1, &[(8, u64::MAX, 0)])), DONE);
}

#[test]
fn cases_11_and_12() {
    let mut world = World::with_size(2);
    assert_eq!(world.status(write(1, 4096, &[5])), (3, 39));
    assert_eq!(world.status(write(1, 4095, &[5])), DONE);
    assert_eq!(world.tables.files[0].size, 4096);
    assert_eq!(world.memory[..2], [1, 2]);
    assert!(world.memory[2..4095].iter().all(|&byte| byte == 0));
    assert_eq!(world.memory[4095..4097], [5, 0xEE]);
}

#[test]
fn case_14() {
    let mut world = World::with_size(0);
    let ranges: Vec<_> = (0..128).map(|place| (7, place * 10, 10)).collect();
    assert_eq!(world.status(lock(1, &ranges)), DONE);
    assert_eq!(world.status(lock(1, &[(7, 1280, 1)])), (1, 8));
    // The conflict comes before the want of a record.
    assert_eq!(world.status(lock(1, &[(7, 5000, 1), (7, 3, 1)])), CONFLICT);
    assert_eq!(world.status(unlock(1, &[(7, 50, 10)])), DONE);
    assert_eq!(world.status(lock(1, &[(7, 1280, 1)])), DONE);
    assert_eq!(world.tables.locks.records[5].range.offset, 60);
    assert_eq!(world.tables.locks.records[127].range.offset, 1280);
}

#[test]
fn more_than_128_in_one_request() {
    let mut world = World::with_size(0);
    let many: Vec<_> = (0..129).map(|place| (7, place, 1)).collect();
    assert_eq!(world.status(lock(1, &many)), (1, 8));
    let mut conflicting = many.clone();
    conflicting.push((9, 128, 1));
    assert_eq!(world.status(lock(1, &conflicting)), CONFLICT);
    assert_eq!(world.status(share(1, &conflicting)), (1, 8));
}

#[test]
fn locks_in_one_request_see_each_other() {
    let mut world = World::with_size(0);
    assert_eq!(world.status(lock(1, &[(7, 0, 5), (7, 4, 1)])), CONFLICT);
    assert_eq!(world.status(lock(1, &[(7, 0, 5), (7, 2, 0)])), DONE);
    // Past 2^64 at the second beats the conflict of the first.
    let ask = lock(1, &[(7, 0, 5), (7, u64::MAX, 3)]);
    assert_eq!(world.status(ask), (1, 87));
    // No such lock beats past 2^64.
    let ask = locking(1, 0x10, &[(7, 0, 6)], &[(7, u64::MAX, 3)]);
    assert_eq!(world.status(ask), (1, 158));
    // The type beats them all, and the byte count follows bit 0x10.
    let ask = locking(1, 0x12, &[(7, 0, 6)], &[(7, u64::MAX, 3)]);
    assert_eq!(world.status(ask), (2, 65535));
    let ask = locking(1, 0x80, &[(7, 0, 6)], &[]);
    assert_eq!(world.status(ask), (2, 65535));
}

#[test]
fn unlocks_are_undone_and_freed_records_are_zero() {
    let mut world = World::with_size(0);
    assert_eq!(
        world.status(lock(1, &[(7, 0, 5), (7, 10, 5), (7, 20, 5)])),
        DONE
    );
    // Released and at once asked for: granted behind the others.
    let ask = locking(1, 0x10, &[(7, 0, 5)], &[(8, 0, 1)]);
    assert_eq!(world.status(ask), DONE);
    let offsets = |world: &World| {
        let locks = world.tables.locks.in_use().iter();
        locks.map(|lock| lock.range.offset).collect::<Vec<_>>()
    };
    assert_eq!(offsets(&world), [10, 20, 0]);
    let ask = locking(1, 0x10, &[(7, 10, 5)], &[(8, 0, 1)]);
    assert_eq!(world.status(ask), CONFLICT);
    world.tables.locks.records[5].fid = 77;
    let ask = locking(1, 0x10, &[(7, 10, 5), (8, 0, 1)], &[(7, 30, 1)]);
    assert_eq!(world.status(ask), DONE);
    assert_eq!(offsets(&world), [20, 30]);
    assert_eq!(world.tables.locks.records[2], Lock::default());
    assert_eq!(world.tables.locks.records[5].fid, 77);
}

#[test]
fn the_earliest_of_equal_locks_is_released() {
    let mut world = World::with_size(0);
    assert_eq!(
        world.status(share(1, &[(7, 0, 5), (8, 0, 5), (7, 0, 5)])),
        DONE
    );
    assert_eq!(world.status(unlock(1, &[(7, 0, 5)])), DONE);
    let processes = world.tables.locks.in_use().iter().map(|lock| lock.process);
    assert_eq!(processes.collect::<Vec<_>>(), [8, 7]);
    assert_eq!(world.status(unlock(1, &[(7, 0, 5), (7, 0, 5)])), (1, 158));
    assert_eq!(world.tables.locks.count, 2);
}

#[test]
fn reads_and_writes_against_locks() {
    let mut world = World::with_size(100);
    assert_eq!(host::add_open(&mut world.tables, 1, 1, 7, 0, 2), Ok(2));
    assert_eq!(world.status(lock(1, &[(7, 0, 10), (8, 10, 10)])), DONE);
    assert_eq!(world.status(share(1, &[(7, 20, 10)])), DONE);
    // Own exclusive, another process's exclusive, shared.
    assert_eq!(world.status(read(1, 0, 10)), DONE);
    assert_eq!(world.status(read(1, 0, 11)), CONFLICT);
    assert_eq!(world.status(read(1, 20, 10)), DONE);
    assert_eq!(world.status(write(1, 0, &[0; 10])), DONE);
    assert_eq!(world.status(write(1, 19, &[0])), CONFLICT);
    // "a write's own shared lock refuses it"
    assert_eq!(world.status(write(1, 29, &[0])), CONFLICT);
    assert_eq!(world.status(write(1, 30, &[0])), DONE);
    // The same process through another FID is another owner.
    assert_eq!(world.status(read(2, 9, 1)), CONFLICT);
    assert_eq!(world.status(write(2, 9, &[0])), CONFLICT);
    // Length 0 overlaps nothing.
    assert_eq!(world.status(read(2, 5, 0)), DONE);
    assert_eq!(world.status(write(2, 5, &[])), DONE);
    // The conflict comes before the end of the file's room.
    assert_eq!(world.status(lock(1, &[(8, 4096, 1)])), DONE);
    assert_eq!(world.status(write(1, 4096, &[0])), CONFLICT);
    assert_eq!(world.status(write(1, 4097, &[0])), (3, 39));
}

#[test]
fn whole_numbers_past_2_64() {
    let mut world = World::with_size(100);
    assert_eq!(world.status(write(1, u64::MAX, &[1, 2])), (3, 39));
    assert_eq!(world.status(write(1, u64::MAX, &[])), DONE);
    let reply = world.ask(&[read(1, u64::MAX, 65535)]);
    assert_eq!((status(&reply), reply.len()), (DONE, 59));
    assert_eq!(world.status(lock(1, &[(8, u64::MAX, 1)])), DONE);
    assert_eq!(world.status(write(1, u64::MAX, &[1, 2])), CONFLICT);
    assert_eq!(world.status(read(1, u64::MAX - 1, 2)), CONFLICT);
    assert_eq!(world.status(read(1, u64::MAX - 1, 1)), DONE);
    assert_eq!(world.tables.files[0].size, 100);
}

#[test]
fn reads_stop_at_the_size() {
    let mut world = World::with_size(100);
    let data = |reply: Vec<u8>| {
        assert_eq!(status(&reply), DONE);
        assert_eq!(reply[43..45], reply[57..59]);
        assert_eq!(reply[45..47], [59, 0]);
        reply[59..].to_vec()
    };
    assert_eq!(data(world.ask(&[read(1, 98, 10)])), [99, 100]);
    assert_eq!(data(world.ask(&[read(1, 99, 1)])), [100]);
    assert_eq!(data(world.ask(&[read(1, 100, 10)])), []);
    assert_eq!(data(world.ask(&[read(1, 1 << 32, 10)])), []);
    assert_eq!(data(world.ask(&[read(1, 0, 0)])), []);
    // Without the upper half of the offset.
    let short = Ask::Read {
        fid: 1,
        offset: 1 << 32 | 98,
        max: 10,
        long: false,
    };
    assert_eq!(data(world.ask(&[short])), [99, 100]);
}

#[test]
fn sessions_trees_opens_and_access() {
    let mut world = World::with_size(10);
    assert_eq!(host::add_open(&mut world.tables, 1, 1, 7, 1, 0), Ok(2));
    assert_eq!(host::add_open(&mut world.tables, 1, 1, 7, 2, 1), Ok(3));
    assert_eq!(world.status(write(2, 0, &[])), (1, 5));
    assert_eq!(world.status(read(2, 0, 1)), DONE);
    assert_eq!(world.status(read(3, 0, 1)), (1, 5));
    assert_eq!(world.status(write(3, 0, &[])), DONE);
    assert_eq!(world.status(lock(2, &[(1, 0, 1)])), DONE);
    assert_eq!(world.status(read(4, 0, 1)), (1, 6));
    assert_eq!(world.status(locking(4, 0x82, &[], &[])), (1, 6));
    assert_eq!(world.status(Ask::Close { fid: 0 }), (1, 6));
    world.header.tid = 2;
    assert_eq!(world.status(Ask::Close { fid: 1 }), (2, 5));
    assert_eq!(world.status(Ask::TreeDisconnect), (2, 5));
    world.header.uid = 2;
    assert_eq!(world.status(Ask::TreeDisconnect), (2, 91));
    world.header.uid = 1;
    world.connection = 8;
    for ask in [
        Ask::Logoff,
        Ask::ProcessExit,
        Ask::TreeDisconnect,
        read(1, 0, 1),
    ] {
        assert_eq!(world.status(ask), (2, 91));
    }
    world.connection = common::CONNECTION;
    // "PROCESS_EXIT does not look at the TID", which is 2 still.
    assert_eq!(world.status(Ask::ProcessExit), DONE);
    assert_eq!(world.tables.opens.count, 0);
    assert_eq!(world.tables.locks.count, 0);
}

#[test]
fn calls_refused() {
    let mut world = World::with_size(10);
    let good = world.message(&[Ask::TreeDisconnect]);
    assert_eq!(world.take(&good[..34]), Err(CallRefusal::Dropped));
    let mut bad = good.clone();
    bad[3] = 0x43;
    assert_eq!(world.take(&bad), Err(CallRefusal::Dropped));
    let mut bad = good.clone();
    bad[9] = 0x80;
    assert_eq!(world.take(&bad), Err(CallRefusal::Dropped));
    let mut long = good.clone();
    long.resize(8193, 0);
    assert_eq!(world.take(&long), Err(CallRefusal::Dropped));
    world.tables.sessions.records[0].uid = 17;
    assert_eq!(world.take(&bad), Err(CallRefusal::NotSound));
    world.memory.pop();
    assert_eq!(world.take(&bad), Err(CallRefusal::Room));
    world.memory.push(0);
    world.tables.sessions.records[0].uid = 1;
    long.pop();
    assert_eq!(status(&world.take(&long).unwrap()), DONE);
}
