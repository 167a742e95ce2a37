//! Two processes that differ in the upper half only (document 02, request 4).
//! What must come was worked out by hand from the papers.

mod common;

use common::{held, hex, lock, read, share, status, unlock, write, World, CONNECTION};
use second::builder::{locking, message, Ask, Asked};
use second::host;
use second::message::ROOM_BYTES;
use second::messages::worked;
use second::tables::MEMORY_BYTES;
use second::words::{self, WORDS};

const DONE: (u8, u16) = (0, 0);
const CONFLICT: (u8, u16) = (1, 33);
const NO_OPEN: (u8, u16) = (1, 6);
const NOT_LOCKED: (u8, u16) = (1, 158);

/// The processes of the customer's bench; 1 is the lower half of both.
const HIGH: u32 = 65_537;
const LOW: u32 = 1;

/// FID 1 of process 7, FID 2 of process 65,537, FID 3 of process 1, all of file
/// 0 with 200 bytes and access both, of UID 1 and TID 1.
fn bench() -> World {
    let mut world = World::with_size(200);
    assert_eq!(host::add_open(&mut world.tables, 1, 1, HIGH, 0, 2), Ok(2));
    assert_eq!(host::add_open(&mut world.tables, 1, 1, LOW, 0, 2), Ok(3));
    world
}

impl World {
    /// Class and code of the reply to a request of that process.
    fn by(&mut self, process: u32, ask: Ask) -> (u8, u16) {
        self.header.pid = process;
        self.status(ask)
    }

    /// FID and process of each open.
    fn opens(&self) -> Vec<(u16, u32)> {
        let opens = self.tables.opens.in_use().iter();
        opens.map(|open| (open.fid, open.process)).collect()
    }

    /// FID, process and offset of each lock.
    fn locks(&self) -> Vec<(u16, u32, u64)> {
        let locks = self.tables.locks.in_use().iter();
        locks
            .map(|lock| (lock.fid, lock.process, lock.range.offset))
            .collect()
    }
}

/// "A bench that numbers its processes beyond 65,535 lost its opens when another
/// process on it ended."
#[test]
fn the_customers_bench() {
    let mut world = bench();
    assert_eq!(world.by(HIGH, lock(2, &[(1, 10, 10)])), DONE);
    assert_eq!(world.by(LOW, lock(3, &[(1, 30, 10)])), DONE);
    assert_eq!(world.locks(), [(2, 65_537, 10), (3, 1, 30)]);
    assert_eq!(world.by(LOW, Ask::ProcessExit), DONE);
    assert_eq!(world.opens(), [(1, 7), (2, 65_537)]);
    assert_eq!(world.locks(), [(2, 65_537, 10)]);
    assert_eq!(world.by(HIGH, read(2, 0, 40)), DONE);
    assert_eq!(world.by(LOW, read(3, 0, 1)), NO_OPEN);
    assert_eq!(world.by(HIGH, Ask::ProcessExit), DONE);
    assert_eq!((world.opens(), world.locks()), (vec![(1, 7)], vec![]));
}

/// The other way round: the process above 65,535 ends.
#[test]
fn the_higher_one_ends() {
    let mut world = bench();
    assert_eq!(world.by(LOW, lock(3, &[(1, 30, 10)])), DONE);
    assert_eq!(world.by(HIGH, lock(2, &[(1, 10, 10)])), DONE);
    assert_eq!(world.by(HIGH, Ask::ProcessExit), DONE);
    assert_eq!(world.opens(), [(1, 7), (3, 1)]);
    assert_eq!(world.locks(), [(3, 1, 30)]);
    assert_eq!(world.by(LOW, write(3, 30, b"stands")), DONE);
}

/// All 32 bits: the upper bits of each half, the halves changed about, and an
/// upper half alone.
#[test]
fn an_exit_compares_all_32_bits() {
    let processes = [
        0x0001_0002,
        0x0002_0001,
        0x0001_8002,
        0x8001_0002,
        0x0001_0000,
        0x0000_0001,
        0xFFFF_FFFF,
        0x0000_FFFF,
        0xFFFF_0000,
    ];
    for gone in processes {
        let mut world = World::with_size(0);
        for process in processes {
            host::add_open(&mut world.tables, 1, 1, process, 0, 0).unwrap();
        }
        assert_eq!(world.by(gone, Ask::ProcessExit), DONE);
        let left: Vec<u32> = world.opens().into_iter().map(|open| open.1).collect();
        let wanted = processes.into_iter().filter(|&process| process != gone);
        assert_eq!(left, [7].into_iter().chain(wanted).collect::<Vec<_>>());
    }
}

/// "PROCESS_EXIT compares all 32 bits with the open's process; locks of that
/// process through other opens stay, as before." And opens of another UID.
#[test]
fn locks_through_other_opens_stay() {
    let mut world = bench();
    assert_eq!(host::add_session(&mut world.tables, CONNECTION), Ok(2));
    assert_eq!(host::add_tree(&mut world.tables, 2, 1), Ok(2));
    assert_eq!(host::add_open(&mut world.tables, 2, 2, HIGH, 1, 2), Ok(4));
    assert_eq!(world.by(HIGH, lock(1, &[(1, 10, 10)])), DONE);
    assert_eq!(world.by(HIGH, lock(3, &[(1, 20, 10)])), DONE);
    assert_eq!(world.by(HIGH, lock(2, &[(7, 30, 10)])), DONE);
    assert_eq!(world.by(HIGH, Ask::ProcessExit), DONE);
    assert_eq!(world.opens(), [(1, 7), (3, 1), (4, HIGH)]);
    assert_eq!(world.locks(), [(1, HIGH, 10), (3, HIGH, 20)]);
}

/// PIDHigh stands at 12, two bytes, the low one first; PIDLow at 26 (source
/// document 002). Of the message of "A listing, whole", whose process is 7.
#[test]
fn places_in_the_header() {
    let mut world = World::with_size(120);
    let mut request = worked();
    request[12..14].copy_from_slice(&[0x34, 0x12]);
    let reply = world.take(&request).unwrap();
    assert_eq!(world.locks(), [(1, 0x1234_0007, 100)]);
    // The read behind it is the owner's: done.
    assert_eq!((reply.len(), status(&reply)), (76, DONE));
    // "Reply bytes don't change": PIDHigh is copied, as ever.
    let mut world = World::with_size(120);
    let mut usual = world.take(&worked()).unwrap();
    assert_eq!(world.locks(), [(1, 7, 100)]);
    usual[12..14].copy_from_slice(&[0x34, 0x12]);
    assert_eq!(reply, usual);
}

/// Only these two fields: nothing else of the header is taken for the process.
#[test]
fn no_other_field() {
    let mut world = World::with_size(120);
    let mut request = worked();
    for place in (5..12).chain(14..24).chain(30..32) {
        request[place] = 0x7F;
    }
    assert_eq!(status(&world.take(&request).unwrap()), DONE);
    assert_eq!(world.locks(), [(1, 7, 100)]);
}

/// Two messages spelled out: process 131,075 (PIDHigh 2, PIDLow 3) locks bytes 5
/// to 8 through FID 1 for its own process, in ranges of either form; the pad of
/// the long one is FF FF.
#[test]
fn ranges_spelled_out() {
    let header = "FF534D42 24 00000000 00 0000 0200 0000000000000000 0000 0100 0300 0100 0000";
    let words = |kind| format!("08 FF 00 0000 0100 {kind} 00 00000000 0000 0100");
    let small = "0A00 0300 05000000 04000000";
    let large = "1400 0300 FFFF 00000000 05000000 00000000 04000000";
    for (kind, range) in [("00", small), ("10", large)] {
        let mut world = World::with_size(120);
        let message = hex(&[header, &words(kind), range].join(" "));
        assert_eq!(status(&world.take(&message).unwrap()), DONE);
        assert_eq!(world.locks(), [(1, 131_075, 5)]);
        assert_eq!(world.by(131_075, read(1, 0, 20)), DONE);
        assert_eq!(world.by(3, read(1, 0, 20)), CONFLICT);
    }
}

/// "a 16-bit process in a lock range takes its upper half from the header", also
/// where the lower half is another than the header's.
#[test]
fn ranges_of_other_processes() {
    let ranges: [Asked; 3] = [(1, 0, 5), (0, 10, 5), (0xFFFF, 20, 5)];
    for kind in [0x00, 0x01, 0x10, 0x11] {
        let mut world = bench();
        assert_eq!(world.by(HIGH, locking(2, kind, &[], &ranges)), DONE);
        let wanted = [(2, 65_537, 0), (2, 65_536, 10), (2, 0x1_FFFF, 20)];
        assert_eq!(world.locks(), wanted);
        assert_eq!(world.by(LOW, locking(2, kind, &ranges, &[])), NOT_LOCKED);
        assert_eq!(world.by(HIGH, locking(2, kind, &ranges, &[])), DONE);
        assert_eq!(world.locks(), []);
    }
}

/// "the pad of the 20-byte form is not looked at", nor is any other free byte.
#[test]
fn the_pad() {
    for byte in [0x00, 0x01, 0x7F] {
        let mut world = bench();
        world.header.pid = 0x0005_0001;
        let locks = [(1, 0, 5), (2, 10, 5)];
        for (unlocks, locks, wanted) in [
            (&[][..], &locks[..], &[(2, 0x5_0001, 0), (2, 0x5_0002, 10)]),
            (&locks, &locks, &[(2, 0x5_0001, 0), (2, 0x5_0002, 10)]),
        ] {
            let ask = [locking(2, 0x10, unlocks, locks)];
            let message = message(world.header, &ask, &mut || 0, &mut || byte);
            assert_eq!(status(&world.take(&message).unwrap()), DONE);
            assert_eq!(world.locks(), wanted);
        }
    }
}

/// "each removes the earliest listed lock with equal FID, process, offset and
/// length": a lock of the same lower half is passed over.
#[test]
fn unlocks_compare_all_32_bits() {
    for form in [0x00, 0x10] {
        let mut world = bench();
        let range = [(1, 50, 5)];
        for process in [LOW, HIGH, LOW, 0x7_0001] {
            let ask = locking(2, form | 1, &[], &range);
            assert_eq!(world.by(process, ask), DONE);
        }
        let released = locking(2, form, &range, &[]);
        assert_eq!(world.by(0x2_0001, released.clone()), NOT_LOCKED);
        // The halves changed about.
        let swapped = locking(2, form, &[(7, 50, 5)], &[]);
        assert_eq!(world.by(0x1_0001, swapped), NOT_LOCKED);
        assert_eq!(world.by(HIGH, released.clone()), DONE);
        assert_eq!(world.locks(), [(2, 1, 50), (2, 1, 50), (2, 0x7_0001, 50)]);
        assert_eq!(world.by(HIGH, released.clone()), NOT_LOCKED);
        assert_eq!(world.by(0x7_0001, released.clone()), DONE);
        let twice = locking(2, form, &[range[0]; 2], &[]);
        assert_eq!(world.by(HIGH, twice.clone()), NOT_LOCKED);
        assert_eq!(world.by(LOW, twice), DONE);
        assert_eq!(world.locks(), []);
    }
}

/// "An owner is a FID with a process", all 32 bits of it.
#[test]
fn the_owner_test() {
    for (owner, other) in [(HIGH, LOW), (LOW, HIGH), (0x7_0001, HIGH)] {
        let mut world = bench();
        assert_eq!(world.by(owner, lock(2, &[(1, 10, 10)])), DONE);
        assert_eq!(world.by(owner, share(2, &[(1, 30, 10)])), DONE);
        assert_eq!(world.by(owner, read(2, 0, 40)), DONE);
        assert_eq!(world.by(owner, write(2, 10, b"own")), DONE);
        assert_eq!(world.by(owner, write(2, 30, b"own")), CONFLICT);
        assert_eq!(world.by(other, read(2, 19, 1)), CONFLICT);
        assert_eq!(world.by(other, write(2, 10, b"no")), CONFLICT);
        assert_eq!(world.by(other, write(2, 39, b"no")), CONFLICT);
        assert_eq!(world.by(other, read(2, 30, 10)), DONE);
        // The same process through another FID is another owner.
        assert_eq!(world.by(owner, read(3, 19, 1)), CONFLICT);
        assert_eq!(world.by(other, unlock(2, &[(1, 10, 10)])), NOT_LOCKED);
        assert_eq!(world.by(owner, unlock(2, &[(1, 10, 10)])), DONE);
        assert_eq!(world.by(other, read(2, 19, 1)), DONE);
    }
}

/// The process of request 2's holder: for a read, a write, a lock, a lock that is
/// undone, and in a chain.
#[test]
fn the_holders_process() {
    let mut world = bench();
    assert_eq!(world.by(HIGH, lock(2, &[(1, 10, 10)])), DONE);
    let holder = (2, 65_537, 0, 10, 10);
    for ask in [
        read(2, 0, 11),
        read(3, 0, 11),
        write(2, 19, b"x"),
        lock(2, &[(1, 15, 1)]),
        share(3, &[(7, 15, 1)]),
    ] {
        assert_eq!(world.by(LOW, ask), CONFLICT);
        assert_eq!(held(world.holder.unwrap()), holder);
    }
    // The asker's own, and the first of two that differ in the upper half.
    assert_eq!(world.by(HIGH, lock(2, &[(1, 15, 1)])), CONFLICT);
    assert_eq!(held(world.holder.unwrap()), holder);
    assert_eq!(world.by(LOW, lock(2, &[(1, 20, 10)])), DONE);
    assert_eq!(world.by(0x9_0001, read(2, 15, 10)), CONFLICT);
    assert_eq!(held(world.holder.unwrap()), holder);
    assert_eq!(world.by(HIGH, read(2, 15, 10)), CONFLICT);
    assert_eq!(held(world.holder.unwrap()), (2, 1, 1, 20, 10));
    // An own earlier range: that range's process, the upper half the header's.
    let ranges = [(5, 40, 5), (6, 44, 5)];
    assert_eq!(world.by(0xFFFF_0001, lock(3, &ranges)), CONFLICT);
    let own = (3, 0xFFFF_0005, 2, 40, 5);
    assert_eq!(held(world.holder.unwrap()), own);
    // In a chain: the lock is granted to process 8 of that upper half, and is in
    // the way of the header's own read.
    world.header.pid = 0x3_0007;
    let reply = world.ask(&[lock(1, &[(8, 60, 5)]), read(1, 60, 5)]);
    assert_eq!(status(&reply), CONFLICT);
    assert_eq!(held(world.holder.unwrap()), (1, 0x3_0008, 2, 60, 5));
}

/// At the boundary: opens, locks and the holder have the process in a word.
#[test]
fn words_of_a_process() {
    let mut world = bench();
    assert_eq!(world.by(u32::MAX, lock(2, &[(0xFFFF, 10, 10)])), DONE);
    let refused = world.message(&[lock(2, &[(0xFFFF, 10, 10)])]);
    let (mut all, mut memory) = ([0; WORDS], vec![0; MEMORY_BYTES]);
    words::pack(&world.tables, &mut all);
    // The second open's and the first lock's.
    assert_eq!((all[131 + 9 + 3], all[708 + 1]), (65_537, 0xFFFF_FFFF));
    let (mut holder, mut room) = ([9; 6], vec![0; ROOM_BYTES]);
    let connection = world.connection;
    let (memory, room) = (&mut memory, &mut room);
    words::take_message(&mut all, connection, &refused, memory, room, &mut holder).unwrap();
    assert_eq!(holder, [1, 2, 0xFFFF_FFFF, 0, 10, 10]);
}
