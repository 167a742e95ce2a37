//! Who holds the lock (document 02, request 2). The holders were worked out by
//! hand from the papers.

mod common;

use common::{held, lock, read, share, status, write, Held, World, CONNECTION};
use second::builder::{locking, Ask, Asked};
use second::holder::Holder;
use second::host;
use second::message::ROOM_BYTES;
use second::refusals::CallRefusal;
use second::rng::Rng;
use second::tables::{Lock, Range, MEMORY_BYTES};
use second::words::{self, HolderWords, WORDS};

const DONE: (u8, u16) = (0, 0);
const CONFLICT: (u8, u16) = (1, 33);

/// FIDs 1 and 2 of file 0, FID 3 of file 1, all of process 7 and access both.
fn three_opens() -> World {
    let mut world = World::with_size(200);
    assert_eq!(host::add_open(&mut world.tables, 1, 1, 7, 0, 2), Ok(2));
    assert_eq!(host::add_open(&mut world.tables, 1, 1, 7, 1, 2), Ok(3));
    world
}

impl World {
    /// Locks one after the other, in ranges of 20 bytes: FID, shared, range.
    fn hold(&mut self, locks: &[(u16, bool, Asked)]) {
        for &(fid, shared, asked) in locks {
            let ask = locking(fid, 0x10 | u8::from(shared), &[], &[asked]);
            assert_eq!(self.status(ask), DONE);
        }
    }

    /// A request that is refused for a lock: FID, process, place, offset and
    /// length of the one in the way.
    fn holder_of(&mut self, ask: Ask) -> Held {
        assert_eq!(self.status(ask), CONFLICT);
        held(self.holder.unwrap())
    }

    /// A chain that is refused for a lock: how many commands were begun, and
    /// the holder.
    fn holder_in(&mut self, asks: &[Ask]) -> (usize, Held) {
        let reply = self.ask(asks);
        assert_eq!(status(&reply), CONFLICT);
        (blocks(&reply), held(self.holder.unwrap()))
    }

    fn none(&mut self, ask: Ask, wanted: (u8, u16)) {
        assert_eq!((self.status(ask), self.holder), (wanted, None));
    }
}

/// Blocks of a reply, by its links.
fn blocks(reply: &[u8]) -> usize {
    let (mut count, mut place) = (1, 32);
    while reply[place] != 0 && reply[place + 1] != 0xFF {
        place = usize::from(u16::from_le_bytes([reply[place + 3], reply[place + 4]]));
        count += 1;
    }
    count
}

/// "For a read: exclusive, another owner's, overlapping."
#[test]
fn a_read() {
    let mut world = three_opens();
    world.hold(&[
        (1, true, (8, 0, 10)),
        (1, false, (7, 10, 10)),
        (1, false, (8, 20, 10)),
        (2, false, (7, 30, 10)),
    ]);
    // The shared one and the reader's own are passed over.
    assert_eq!(world.holder_of(read(1, 0, 200)), (1, 8, 2, 20, 10));
    assert_eq!(world.holder_of(read(1, 29, 1)), (1, 8, 2, 20, 10));
    // The same process through another FID is another owner.
    assert_eq!(world.holder_of(read(1, 30, 1)), (2, 7, 3, 30, 10));
    assert_eq!(world.holder_of(read(2, 0, 200)), (1, 7, 1, 10, 10));
    world.none(read(2, 30, 10), DONE);
    world.header.pid = 8;
    assert_eq!(world.holder_of(read(1, 0, 200)), (1, 7, 1, 10, 10));
}

/// "for a write: any overlapping one but the writer's own exclusive ones (so
/// its own shared lock can be the holder)"
#[test]
fn a_write() {
    let mut world = three_opens();
    world.hold(&[
        (1, false, (7, 0, 10)),
        (1, true, (7, 10, 10)),
        (1, true, (8, 10, 20)),
        (2, false, (7, 30, 10)),
    ]);
    assert_eq!(world.holder_of(write(1, 0, &[0; 50])), (1, 7, 1, 10, 10));
    assert_eq!(world.holder_of(write(1, 20, &[0])), (1, 8, 2, 10, 20));
    assert_eq!(world.holder_of(write(1, 39, &[0])), (2, 7, 3, 30, 10));
    world.none(write(1, 0, &[0; 10]), DONE);
    assert_eq!(world.holder_of(write(2, 9, &[0; 9])), (1, 7, 0, 0, 10));
    world.header.pid = 8;
    assert_eq!(world.holder_of(write(1, 9, &[0; 9])), (1, 7, 0, 0, 10));
    assert_eq!(world.holder_of(write(1, 25, &[0])), (1, 8, 2, 10, 20));
}

/// A lock: "the asker's own locks included", two shared ones excepted.
#[test]
fn a_lock() {
    let mut world = three_opens();
    world.hold(&[
        (1, false, (7, 0, 10)),
        (2, true, (9, 20, 10)),
        (1, true, (8, 20, 20)),
    ]);
    assert_eq!(world.holder_of(lock(2, &[(9, 9, 1)])), (1, 7, 0, 0, 10));
    assert_eq!(world.holder_of(lock(1, &[(7, 0, 10)])), (1, 7, 0, 0, 10));
    assert_eq!(world.holder_of(lock(1, &[(7, 0, 50)])), (1, 7, 0, 0, 10));
    assert_eq!(world.holder_of(share(1, &[(7, 9, 50)])), (1, 7, 0, 0, 10));
    assert_eq!(world.holder_of(lock(1, &[(8, 25, 9)])), (2, 9, 1, 20, 10));
    assert_eq!(world.holder_of(lock(1, &[(8, 30, 9)])), (1, 8, 2, 20, 20));
    world.none(share(1, &[(8, 25, 9)]), DONE);
}

/// In ranges of 10 bytes too, and at the ends of 64 bits.
#[test]
fn forms_and_far_ranges() {
    let mut world = three_opens();
    world.hold(&[(1, false, (0xFFFF, u64::MAX, 1)), (1, false, (0, 5, 5))]);
    let small = locking(2, 0x00, &[], &[(7, 9, 0xFFFF_FFFF)]);
    assert_eq!(world.holder_of(small), (1, 0, 1, 5, 5));
    let far = (1, 0xFFFF, 0, u64::MAX, 1);
    assert_eq!(world.holder_of(lock(2, &[(7, 1 << 63, 1 << 63)])), far);
    assert_eq!(world.holder_of(read(2, u64::MAX - 1, 9)), far);
    assert_eq!(world.holder_of(write(2, u64::MAX, &[1, 2])), far);
}

/// "this request's unlocks taken out": those before the holder move it
/// forward, those behind it don't.
#[test]
fn moved_by_unlocks() {
    let mut world = three_opens();
    world.hold(&[
        (1, false, (7, 0, 5)),
        (3, false, (7, 0, 5)),
        (1, false, (7, 10, 5)),
        (2, false, (8, 20, 5)),
        (1, false, (7, 30, 5)),
    ]);
    let asked = [(7, 24, 1)];
    let mut holder = |unlocks: &[Asked]| world.holder_of(locking(1, 0x10, unlocks, &asked));
    assert_eq!(holder(&[]), (2, 8, 3, 20, 5));
    assert_eq!(holder(&[(7, 10, 5)]), (2, 8, 2, 20, 5));
    assert_eq!(holder(&[(7, 10, 5), (7, 0, 5)]), (2, 8, 1, 20, 5));
    assert_eq!(holder(&[(7, 30, 5)]), (2, 8, 3, 20, 5));
    assert_eq!(holder(&[(7, 0, 5), (7, 30, 5)]), (2, 8, 2, 20, 5));
    // What is released is not in the way.
    let ask = locking(1, 0x10, &[(7, 0, 5), (7, 10, 5)], &[(7, 0, 40)]);
    assert_eq!(world.holder_of(ask), (2, 8, 1, 20, 5));
    let ask = locking(1, 0x10, &[(7, 10, 5)], &[(9, 10, 5), (9, 32, 1)]);
    assert_eq!(world.holder_of(ask), (1, 7, 3, 30, 5));
}

/// Of two equal locks the earliest is released; the other is the holder.
#[test]
fn the_other_of_two_equal_ones() {
    let mut world = three_opens();
    world.hold(&[
        (1, true, (7, 0, 5)),
        (1, true, (8, 0, 5)),
        (1, true, (7, 0, 5)),
    ]);
    let again = (7, 0, 5);
    let ask = locking(1, 0x10, &[again], &[(7, 0, 1)]);
    assert_eq!(world.holder_of(ask), (1, 8, 0, 0, 5));
    let ask = locking(1, 0x10, &[again, (8, 0, 5)], &[(7, 0, 1)]);
    assert_eq!(world.holder_of(ask), (1, 7, 0, 0, 5));
    assert_eq!(world.tables.locks.count, 3);
}

/// "A lock granted earlier in the same request may be the answer, though it is
/// undone": the request's FID and that range's process, at the list's end.
#[test]
fn an_own_earlier_range() {
    let mut world = three_opens();
    let ask = lock(1, &[(9, 100, 10), (8, 109, 5)]);
    assert_eq!(world.holder_of(ask), (1, 9, 0, 100, 10));
    world.hold(&[(2, false, (8, 0, 5)), (3, false, (8, 100, 50))]);
    let ask = lock(1, &[(9, 100, 10), (8, 109, 5)]);
    assert_eq!(world.holder_of(ask), (1, 9, 2, 100, 10));
    let ranges = [(9, 100, 10), (10, 60, 10), (11, 80, 10), (7, 65, 30)];
    assert_eq!(world.holder_of(lock(2, &ranges)), (2, 10, 3, 60, 10));
    // The earlier range first in the list, whichever bytes come first.
    let ranges = [(9, 80, 10), (10, 60, 10), (7, 65, 30)];
    assert_eq!(world.holder_of(lock(2, &ranges)), (2, 9, 2, 80, 10));
    // With an unlock it stands one place further to the front.
    let ask = locking(2, 0x10, &[(8, 0, 5)], &[(11, 0, 5), (12, 9, 1), (7, 4, 1)]);
    assert_eq!(world.holder_of(ask), (2, 11, 1, 0, 5));
    // A lock held comes before the request's own.
    let ask = lock(1, &[(9, 10, 10), (9, 3, 10)]);
    assert_eq!(world.holder_of(ask), (2, 8, 0, 0, 5));
    world.none(share(1, &[(9, 100, 10), (8, 109, 5)]), DONE);
}

/// The first range is granted, the second not.
#[test]
fn the_second_range() {
    let mut world = three_opens();
    world.hold(&[(2, false, (8, 0, 5)), (2, false, (9, 10, 5))]);
    let ask = lock(1, &[(7, 20, 5), (7, 14, 1)]);
    assert_eq!(world.holder_of(ask), (2, 9, 1, 10, 5));
    let ask = share(1, &[(7, 20, 5), (7, 20, 5), (7, 0, 50)]);
    assert_eq!(world.holder_of(ask), (2, 8, 0, 0, 5));
}

/// The first range with a conflict decides, also where a later one meets an
/// earlier lock of the list.
#[test]
fn ranges_before_the_list() {
    let mut world = three_opens();
    world.hold(&[
        (2, false, (8, 0, 5)),
        (2, false, (9, 10, 5)),
        (2, false, (10, 20, 5)),
    ]);
    let ask = lock(1, &[(7, 50, 5), (7, 22, 1), (7, 12, 1), (7, 0, 1)]);
    assert_eq!(world.holder_of(ask), (2, 10, 2, 20, 5));
    let ask = lock(1, &[(7, 12, 1), (7, 0, 1)]);
    assert_eq!(world.holder_of(ask), (2, 9, 1, 10, 5));
    // An own earlier range before a lock held that is in a later one's way.
    let ask = lock(1, &[(11, 50, 5), (7, 54, 1), (7, 0, 1)]);
    assert_eq!(world.holder_of(ask), (1, 11, 3, 50, 5));
}

/// "in a chain that of the refused command"
#[test]
fn chains() {
    let mut world = three_opens();
    world.hold(&[(2, false, (8, 0, 5))]);
    // The second: a lock that the first was granted.
    let asks = [lock(1, &[(9, 50, 10)]), write(1, 59, &[1])];
    assert_eq!(world.holder_in(&asks), (2, (1, 9, 1, 50, 10)));
    let asks = [write(1, 100, &[1]), read(1, 0, 9)];
    assert_eq!(world.holder_in(&asks), (2, (2, 8, 0, 0, 5)));
    // The third.
    let asks = [
        share(1, &[(7, 70, 10)]),
        write(1, 100, &[1]),
        write(1, 70, &[1]),
        Ask::Close { fid: 1 },
    ];
    assert_eq!(world.holder_in(&asks), (3, (1, 7, 2, 70, 10)));
    // What the first command released is gone from the list.
    let asks = [
        locking(1, 0x10, &[(9, 50, 10)], &[]),
        write(1, 50, &[1]),
        read(1, 70, 1),
        Ask::Close { fid: 1 },
    ];
    assert_eq!(status(&world.ask(&asks)), DONE);
    assert_eq!(world.holder, None);
    let asks = [
        locking(2, 0x10, &[(8, 0, 5)], &[(8, 30, 5), (9, 40, 5)]),
        write(2, 0, &[1]),
        read(2, 0, 60),
    ];
    assert_eq!(world.holder_in(&asks), (3, (2, 8, 0, 30, 5)));
    // The first refused, the others not begun.
    let asks = [lock(2, &[(7, 44, 9)]), read(2, 30, 1)];
    assert_eq!(world.holder_in(&asks), (1, (2, 9, 1, 40, 5)));
    // A chain refused otherwise has none.
    let asks = [lock(2, &[(7, 90, 9)]), write(2, 4096, &[1])];
    assert_eq!(status(&world.ask(&asks)), (3, 39));
    assert_eq!(world.holder, None);
}

/// All files' locks have their places in the list, but those of another file
/// are in nobody's way.
#[test]
fn another_file() {
    let mut world = three_opens();
    world.hold(&[
        (3, false, (7, 0, 100)),
        (2, false, (8, 0, 5)),
        (3, false, (7, 200, 100)),
        (2, false, (8, 200, 5)),
    ]);
    assert_eq!(world.holder_of(lock(1, &[(7, 0, 1)])), (2, 8, 1, 0, 5));
    assert_eq!(world.holder_of(read(1, 0, 1)), (2, 8, 1, 0, 5));
    assert_eq!(world.holder_of(write(1, 4, &[1])), (2, 8, 1, 0, 5));
    assert_eq!(world.holder_of(lock(1, &[(7, 204, 1)])), (2, 8, 3, 200, 5));
    assert_eq!(
        world.holder_of(lock(3, &[(9, 250, 1)])),
        (3, 7, 2, 200, 100)
    );
    world.none(lock(1, &[(7, 50, 10)]), DONE);
}

/// "Length 0 covers no byte and overlaps nothing": it has its place, and is
/// nobody's holder.
#[test]
fn length_0() {
    let mut world = three_opens();
    world.hold(&[
        (2, false, (8, 5, 0)),
        (2, false, (8, 0, 10)),
        (2, false, (8, 5, 0)),
    ]);
    let holder = (2, 8, 1, 0, 10);
    assert_eq!(world.holder_of(lock(1, &[(7, 5, 1)])), holder);
    assert_eq!(world.holder_of(read(1, 5, 1)), holder);
    assert_eq!(world.holder_of(write(1, 5, &[1])), holder);
    // Ranges of length 0 are granted, and counted behind the list.
    let ask = lock(1, &[(9, 5, 0), (9, 5, 0), (10, 20, 5), (11, 22, 1)]);
    assert_eq!(world.holder_of(ask), (1, 10, 5, 20, 5));
    world.none(read(1, 5, 0), DONE);
    world.none(write(1, 5, &[]), DONE);
    world.none(lock(1, &[(7, 5, 0)]), DONE);
}

/// The last places of a full list, and places behind it: "however long it
/// gets".
#[test]
fn long_lists() {
    let mut world = three_opens();
    let ranges: Vec<Asked> = (0..128).map(|place| (7, place * 10, 10)).collect();
    assert_eq!(world.status(lock(1, &ranges)), DONE);
    assert_eq!(world.holder_of(read(2, 1279, 9)), (1, 7, 127, 1270, 10));
    let ask = locking(1, 0x10, &ranges[..127], &[(8, 1275, 1)]);
    assert_eq!(world.holder_of(ask), (1, 7, 0, 1270, 10));
    let ask = locking(1, 0x10, &ranges[127..], &[(8, 1275, 1), (8, 1269, 1)]);
    assert_eq!(world.holder_of(ask), (1, 7, 126, 1260, 10));
    let mut more: Vec<Asked> = (0..30).map(|place| (9, 2000 + place * 10, 10)).collect();
    world.none(lock(1, &more), (1, 8));
    more.push((10, 2295, 1));
    assert_eq!(world.holder_of(lock(2, &more)), (2, 9, 157, 2290, 10));
    let ask = locking(1, 0x10, &ranges, &more);
    assert_eq!(world.holder_of(ask), (1, 9, 29, 2290, 10));
}

/// "Only 1/33 has a holder", each other refusal being given with a conflict at
/// hand.
#[test]
fn no_holder() {
    let mut world = three_opens();
    world.hold(&[(2, false, (8, 0, 4090)), (1, false, (8, 5000, 5))]);
    assert_eq!(host::add_open(&mut world.tables, 1, 1, 7, 0, 0), Ok(4));
    assert_eq!(host::add_open(&mut world.tables, 1, 1, 7, 0, 1), Ok(5));
    let asked = [(7, 0, 1)];
    world.none(locking(9, 0x10, &[], &asked), (1, 6));
    world.none(write(4, 0, &[1]), (1, 5));
    world.none(read(5, 0, 1), (1, 5));
    world.none(locking(1, 0x12, &[], &asked), (2, 65535));
    world.none(locking(1, 0x10, &[(7, 0, 9)], &asked), (1, 158));
    world.none(lock(1, &[(7, 0, 1), (7, u64::MAX, 2)]), (1, 87));
    world.none(write(1, 4090, &[0; 7]), (3, 39));
    world.none(write(1, 4090, &[1]), DONE);
    world.none(read(1, 4090, 9), DONE);
    world.none(lock(1, &[(7, 4090, 9)]), DONE);
    let many: Vec<Asked> = (0..128).map(|place| (7, 9000 + place, 1)).collect();
    world.none(lock(1, &many), (1, 8));
    world.header.tid = 9;
    world.none(read(1, 0, 1), (2, 5));
    world.header.uid = 9;
    world.none(read(1, 0, 1), (2, 91));
    let mut message = world.message(&[read(1, 0, 1)]);
    message[32] = 11;
    assert_eq!(status(&world.take(&message).unwrap()), (2, 1));
    assert_eq!(world.holder, None);
    message[4] = 0x2C;
    assert_eq!(status(&world.take(&message).unwrap()), (2, 22));
    assert_eq!(world.holder, None);
}

/// At the boundary: six words, written with 0 and not otherwise.
#[test]
fn words_of_a_holder() {
    let mut world = three_opens();
    world.hold(&[
        (3, false, (7, 0, 9)),
        (2, false, (0xFFFF, 1 << 40, u64::MAX >> 1)),
    ]);
    let (mut all, mut memory) = ([0; WORDS], vec![0; MEMORY_BYTES]);
    words::pack(&world.tables, &mut all);
    let anything: HolderWords = [9, 8, 7, 6, 5, u64::MAX];
    let mut given = |all: &mut [u64; WORDS], message: &[u8], room: usize| {
        let (mut holder, mut room) = (anything, vec![0; room]);
        let (memory, room) = (&mut memory, &mut room);
        let outcome = words::take_message(all, CONNECTION, message, memory, room, &mut holder);
        (outcome, holder)
    };
    let refused = world.message(&[read(1, 1 << 40, 1)]);
    let holder = [1, 2, 0xFFFF, 1, 1 << 40, u64::MAX >> 1];
    assert_eq!(given(&mut all, &refused, ROOM_BYTES), (Ok(35), holder));
    let done = world.message(&[read(1, 0, 0)]);
    assert_eq!(given(&mut all, &done, ROOM_BYTES), (Ok(59), [0; 6]));
    let other = world.message(&[read(9, 0, 0)]);
    assert_eq!(given(&mut all, &other, ROOM_BYTES), (Ok(35), [0; 6]));
    let dropped = (Err(CallRefusal::Dropped), anything);
    assert_eq!(given(&mut all, &refused[..34], ROOM_BYTES), dropped);
    let room = (Err(CallRefusal::Room), anything);
    assert_eq!(given(&mut all, &refused, ROOM_BYTES - 1), room);
    // The second lock over the first, of one file now.
    all[131 + 2 * 9 + 4] = 0;
    all[708 + 5 + 2] = 0;
    let not_sound = (Err(CallRefusal::NotSound), anything);
    assert_eq!(given(&mut all, &refused, ROOM_BYTES), not_sound);
}

/// The list as the papers have it, written out: what is released goes, each
/// range stands behind it once it is granted. Gives the first lock in the way
/// of the first range that meets one.
fn by_the_list(
    world: &World,
    fid: u16,
    shared: bool,
    unlocks: &[Asked],
    locks: &[Asked],
) -> Option<Held> {
    let file_of = |fid: u16| world.tables.opens.records[usize::from(fid) - 1].file;
    let asked = |lock: &Lock| (lock.process as u16, lock.range.offset, lock.range.length);
    let mut list = world.tables.locks.in_use().to_vec();
    for unlock in unlocks {
        let alike = |lock: &Lock| lock.fid == fid && asked(lock) == *unlock;
        let place = list.iter().position(alike);
        list.remove(place.expect("a lock to release"));
    }
    for &(process, offset, length) in locks {
        let new = Lock {
            fid,
            process: process.into(),
            range: Range { offset, length },
            shared,
        };
        let in_the_way = |lock: &Lock| file_of(lock.fid) == file_of(fid) && lock.conflicts(&new);
        if let Some(place) = list.iter().position(in_the_way) {
            let lock = list[place];
            return Some(held(Holder { place, lock }));
        }
        list.push(new);
    }
    None
}

#[test]
fn by_the_list_written_out() {
    let mut rng = Rng::new(2);
    let (mut refused, mut moved, mut own) = (0, 0, 0);
    for _ in 0..100 {
        let mut world = three_opens();
        for _ in 0..60 {
            let fid = 1 + rng.below(3) as u16;
            let shared = rng.below(2) == 0;
            let before = world.tables.locks.clone();
            let mut unlocks: Vec<Asked> = Vec::new();
            for lock in before.in_use() {
                if lock.fid == fid && rng.below(4) == 0 {
                    unlocks.push((lock.process as u16, lock.range.offset, lock.range.length));
                }
            }
            let mut range = || {
                let process = rng.pick(&[7, 8]);
                (process, rng.below(60) as u64, rng.below(4) as u64)
            };
            let locks: Vec<Asked> = (0..4).map(|_| range()).collect();
            let wanted = by_the_list(&world, fid, shared, &unlocks, &locks);
            let ask = locking(fid, 0x10 | u8::from(shared), &unlocks, &locks);
            assert_eq!(world.status(ask) == CONFLICT, wanted.is_some());
            assert_eq!(world.holder.map(held), wanted);
            if let Some(Holder { place, lock }) = world.holder {
                refused += 1;
                if place >= before.count - unlocks.len() {
                    own += 1;
                } else if before.records[place] != lock {
                    moved += 1;
                }
            }
        }
    }
    let met = (refused, moved, own);
    assert!(refused > 2000 && moved > 300 && own > 100, "{met:?}");
}
