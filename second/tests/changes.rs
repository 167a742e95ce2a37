//! "Has the list changed?" (document 02, request 8): change numbers, what an open
//! remembers, and the host's question.

mod common;

use common::{catalogue, lock, read, share, status, unlock, write, World, CONNECTION};
use second::builder::{core_read, core_write, lock_range, open, unlock_range, Ask, Header};
use second::host::{self, add_open, load_file, set_catalogue, unchanged};
use second::message::ROOM_BYTES;
use second::refusals::CallRefusal;
use second::request::JUST_OPENED;
use second::tables::{File, Tables, FILES, MEMORY_BYTES};
use second::words::{self, Words, WORDS};
use std::slice::from_ref;

const DONE: (u8, u16) = (0, 0);
const ACCESS: (u8, u16) = (1, 5);
const NO_OPEN: (u8, u16) = (1, 6);
const CONFLICT: (u8, u16) = (1, 33);
const FILE_FULL: (u8, u16) = (3, 39);
/// "at its largest it stays"
const LARGEST: u64 = 4_294_967_295;

/// FIDs 1 (both), 2 (both), 3 (read) and 4 (write) of file 0, FID 5 (both) of
/// file 1. File 0 has 100 bytes.
fn five_opens() -> World {
    let mut world = World::with_size(100);
    for (file, access) in [(0, 2), (0, 0), (0, 1), (1, 2)] {
        add_open(&mut world.tables, 1, 1, 7, file, access).unwrap();
    }
    world
}

impl World {
    fn number(&self) -> u64 {
        self.tables.files[0].changes
    }

    /// Whether the FID has read, and what it remembers.
    fn memory_of(&self, fid: u16) -> (bool, u64) {
        let open = self.tables.open_of(fid).unwrap();
        (open.read, open.seen)
    }

    /// The host's question, which changes nothing.
    fn unchanged(&self, fid: u32) -> bool {
        let before = self.tables.clone();
        let answer = unchanged(&self.tables, fid).unwrap();
        assert!(self.tables == before);
        answer
    }

    /// The answers for FIDs 1 to 5.
    fn answers(&self) -> [bool; 5] {
        [1, 2, 3, 4, 5].map(|fid| self.unchanged(fid))
    }

    /// Sets file 0's number, and what FID 1 remembers of it.
    fn set_numbers(&mut self, number: u64, seen: u64) {
        self.tables.files[0].changes = number;
        let open = &mut self.tables.opens.records[0];
        (open.read, open.seen) = (true, seen);
        assert!(self.tables.sound());
    }

    fn done(&mut self, asks: &[Ask]) {
        assert_eq!(status(&self.ask(asks)), DONE);
    }
}

/// The tables, all opens having read nothing.
fn forgetful(tables: &Tables) -> Tables {
    let mut tables = tables.clone();
    for open in tables.opens.in_use_mut() {
        (open.read, open.seen) = (false, 0);
    }
    tables
}

/// "Numbers start at 0." "A new open has not read", so its answer is "changed"
/// though both numbers are 0.
#[test]
fn at_the_start() {
    let world = five_opens();
    assert!(world.tables.files.iter().all(|file| file.changes == 0));
    for fid in 1..=5 {
        assert_eq!(world.memory_of(fid), (false, 0));
    }
    assert_eq!(world.answers(), [false; 5]);
}

/// "Any granted READ_ANDX or core READ remembers": in the record of its open, and
/// nothing else changes.
#[test]
fn reads_remember() {
    for ask in [
        read(1, 0, 10),
        core_read(1, 0, 10),
        Ask::Read {
            fid: 1,
            offset: 0,
            max: 10,
            long: false,
        },
    ] {
        let mut world = five_opens();
        world.tables.files[0].changes = 41;
        let before = world.tables.clone();
        world.done(&[ask]);
        assert_eq!(world.memory_of(1), (true, 41));
        assert_eq!(world.answers(), [true, false, false, false, false]);
        assert_eq!(forgetful(&world.tables), before);
        assert_eq!(world.tables.opens.in_use()[1..], before.opens.in_use()[1..]);
        // Asked again it is the same.
        assert_eq!(world.answers(), [true, false, false, false, false]);
    }
}

/// "also one that yields or asks no byte"
#[test]
fn reads_of_no_byte_remember() {
    for ask in [
        read(1, 0, 0),
        read(1, 100, 10),
        read(1, u64::MAX, 10),
        read(1, 1 << 40, 0),
        core_read(1, 0, 0),
        core_read(1, 100, 10),
        core_read(1, u32::MAX, 0),
    ] {
        let mut world = five_opens();
        world.tables.files[0].changes = 3;
        world.done(&[ask]);
        assert_eq!(world.memory_of(1), (true, 3));
        assert!(world.unchanged(1));
    }
    // Of an empty file too.
    let mut world = World::with_size(0);
    world.done(&[read(1, 0, 10)]);
    assert!(world.unchanged(1));
}

/// "a refused one doesn't": for a lock in the way, its access, or want of an open.
#[test]
fn refused_reads_do_not_remember() {
    let mut world = five_opens();
    world.done(&[read(1, 0, 1), Ask::Close { fid: 5 }]);
    world.done(&[write(2, 0, b"x")]);
    world.done(&[lock(2, &[(7, 50, 10)])]);
    for (asks, refusal, fid) in [
        ([read(1, 45, 10), core_read(1, 45, 10)], CONFLICT, 1),
        ([read(3, 45, 10), core_read(3, 45, 10)], CONFLICT, 3),
        ([read(4, 0, 1), core_read(4, 0, 1)], ACCESS, 4),
        ([read(5, 0, 1), core_read(5, 0, 1)], NO_OPEN, 1),
        ([read(JUST_OPENED, 0, 1), core_read(65, 0, 1)], NO_OPEN, 1),
    ] {
        let before = world.memory_of(fid);
        for ask in asks {
            assert_eq!(world.status(ask), refusal);
            assert_eq!(world.memory_of(fid), before);
            assert!(!world.unchanged(fid.into()));
        }
    }
    assert_eq!(world.memory_of(1), (true, 0));
    // With another UID, TID or connection there is no such open.
    let own = world.header;
    for (header, connection) in [
        (Header { uid: 2, ..own }, CONNECTION),
        (Header { tid: 2, ..own }, CONNECTION),
        (own, CONNECTION + 1),
    ] {
        (world.header, world.connection) = (header, connection);
        assert_ne!(world.status(read(1, 0, 1)), DONE);
        assert_eq!(world.memory_of(1), (true, 0));
    }
    (world.header, world.connection) = (own, CONNECTION);
    world.done(&[read(1, 0, 1)]);
    assert_eq!(world.memory_of(1), (true, 1));
}

/// A refused read leaves what was remembered before, and "unchanged" with it.
#[test]
fn a_refused_read_forgets_nothing() {
    let mut world = five_opens();
    world.done(&[read(1, 0, 1)]);
    world.done(&[lock(2, &[(7, 50, 10)])]);
    assert_eq!(world.status(read(1, 50, 1)), CONFLICT);
    assert!(world.unchanged(1));
}

/// "each granted write of at least one byte": by one, whatever it does to the size
/// and to the bytes; "also where the bytes are equal".
#[test]
fn writes_raise_by_one() {
    let mut world = five_opens();
    let same = world.memory[10..13].to_vec();
    let asks = [
        write(1, 0, b"x"),
        write(2, 10, &same),
        write(2, 10, &same),
        write(4, 100, b"longer"),
        write(1, 4095, b"z"),
        write(1, 0, &[7; 4096]),
        core_write(1, 0, b"x"),
        core_write(4, 0, b"x"),
        core_write(2, 200, &[9; 50]),
    ];
    for (before, ask) in asks.into_iter().enumerate() {
        assert_eq!(world.number(), before as u64);
        assert_eq!(world.status(ask), DONE);
        assert_eq!(world.number(), before as u64 + 1);
    }
    // No other file's number.
    assert!(world.tables.files[1..].iter().all(|file| file.changes == 0));
}

/// "WRITE_ANDX of length 0 never", at whatever offset.
#[test]
fn a_write_andx_of_length_0_raises_nothing() {
    let mut world = five_opens();
    world.done(&[read(1, 0, 1)]);
    for offset in [0, 50, 100, 101, 4096, 4097, u64::MAX] {
        for fid in [1, 2, 4] {
            assert_eq!(world.status(write(fid, offset, b"")), DONE);
            assert_eq!((world.number(), world.unchanged(1)), (0, true));
        }
    }
}

/// "count 0 only if the size changes"
#[test]
fn sizes_raise_only_where_they_change() {
    let mut world = five_opens();
    world.done(&[read(3, 0, 1)]);
    assert_eq!(world.status(core_write(1, 100, b"")), DONE);
    assert_eq!((world.number(), world.unchanged(3)), (0, true));
    for (size, number) in [
        (101, 1),
        (101, 1),
        (50, 2),
        (50, 2),
        (0, 3),
        (0, 3),
        (4096, 4),
    ] {
        assert_eq!(world.status(core_write(2, size, b"")), DONE);
        assert_eq!(world.number(), number);
        assert!(!world.unchanged(3));
    }
    assert_eq!(world.status(core_write(2, 4096, b"")), DONE);
    assert_eq!(world.number(), 4);
    // Back to a size that it had is a change as well.
    world.done(&[read(3, 0, 1)]);
    world.done(&[core_write(2, 10, b"")]);
    world.done(&[core_write(2, 4096, b"")]);
    assert_eq!((world.number(), world.unchanged(3)), (6, false));
}

/// A refused write raises nothing, in whichever form.
#[test]
fn refused_writes_raise_nothing() {
    let mut world = five_opens();
    world.done(&[read(1, 0, 1)]);
    world.done(&[share(2, &[(7, 50, 10)])]);
    for (ask, refusal) in [
        (write(1, 55, b"x"), CONFLICT),
        (core_write(1, 55, b"x"), CONFLICT),
        (core_write(1, 55, b""), CONFLICT),
        (write(3, 0, b"x"), ACCESS),
        (write(3, 0, b""), ACCESS),
        (core_write(3, 0, b"x"), ACCESS),
        (core_write(3, 0, b""), ACCESS),
        (core_write(3, 100, b""), ACCESS),
        (write(9, 0, b"x"), NO_OPEN),
        (core_write(9, 0, b""), NO_OPEN),
        (write(1, 4096, b"x"), FILE_FULL),
        (write(1, 4090, b"1234567"), FILE_FULL),
        (core_write(1, 4096, b"x"), FILE_FULL),
        (core_write(1, 4097, b""), FILE_FULL),
    ] {
        assert_eq!(world.status(ask), refusal);
        assert_eq!((world.number(), world.unchanged(1)), (0, true));
    }
}

/// Nothing else raises a number, forgets or remembers.
#[test]
fn other_commands_and_calls_leave_all() {
    let mut world = five_opens();
    set_catalogue(&mut world.tables, &catalogue(&[(b"LIST", 0)])).unwrap();
    world.tables.files[0].changes = 5;
    world.done(&[read(1, 0, 1)]);
    let remembered = |world: &World| {
        let opens = world.tables.opens.in_use().iter();
        let opens: Vec<_> = opens.map(|o| (o.fid, o.read, o.seen)).collect();
        (world.tables.files, opens)
    };
    let before = remembered(&world);
    for ask in [
        lock(1, &[(7, 0, 10)]),
        unlock(1, &[(7, 0, 10)]),
        lock_range(2, 0, 5),
        unlock_range(2, 0, 5),
    ] {
        assert_eq!(world.status(ask), DONE);
        assert!(remembered(&world) == before);
    }
    assert_eq!(host::drop_connection(&mut world.tables, 77), Ok(()));
    set_catalogue(&mut world.tables, &catalogue(&[])).unwrap();
    assert_eq!(host::add_session(&mut world.tables, 3), Ok(2));
    assert_eq!(host::add_tree(&mut world.tables, 2, 1), Ok(2));
    assert!(remembered(&world) == before);
    // A close leaves the file's number, and what other opens remember.
    world.done(&[Ask::Close { fid: 2 }]);
    assert_eq!((world.number(), world.unchanged(1)), (5, true));
    // So does each other end of an open, and a FID below goes to another.
    assert_eq!(add_open(&mut world.tables, 2, 2, 8, 0, 2), Ok(2));
    host::drop_connection(&mut world.tables, 3).unwrap();
    assert_eq!((world.memory_of(1), world.unchanged(1)), ((true, 5), true));
}

/// "One's own write makes one's own answer 'changed'", another's as well; a read
/// by one open is no read by another of the same file.
#[test]
fn own_and_others_writes() {
    for writer in [1, 2, 4] {
        for ask in [
            write(writer, 0, b"x"),
            core_write(writer, 0, b"x"),
            core_write(writer, 7, b""),
        ] {
            let mut world = five_opens();
            for fid in [1, 2, 3, 5] {
                world.done(&[read(fid, 0, 1)]);
            }
            assert_eq!(world.answers(), [true, true, true, false, true]);
            assert_eq!(world.status(ask), DONE);
            assert_eq!(world.answers(), [false, false, false, false, true]);
            world.done(&[core_read(2, 0, 1)]);
            assert_eq!(world.answers(), [false, true, false, false, true]);
        }
    }
}

/// "In WRITE, READ of one chain the READ remembers the number after the WRITE."
#[test]
fn a_read_behind_writes_in_a_chain() {
    let mut world = five_opens();
    world.done(&[write(1, 0, b"x"), read(1, 0, 1)]);
    assert_eq!((world.number(), world.memory_of(1)), (1, (true, 1)));
    assert!(world.unchanged(1));
    world.done(&[
        write(2, 0, b"x"),
        write(1, 5, b""),
        write(4, 0, b"x"),
        read(3, 0, 1),
    ]);
    assert_eq!((world.number(), world.memory_of(3)), (3, (true, 3)));
    assert_eq!(world.answers(), [false, false, true, false, false]);
    // The READ is refused, the WRITE stands.
    let reply = world.ask(&[write(1, 0, b"x"), read(4, 0, 1)]);
    assert_eq!((status(&reply), world.number()), (ACCESS, 4));
    assert_eq!(world.memory_of(4), (false, 0));
    // The WRITE is refused, the READ isn't begun.
    let reply = world.ask(&[write(3, 0, b"x"), read(3, 0, 1)]);
    assert_eq!((status(&reply), world.memory_of(3)), (ACCESS, (true, 3)));
    // The same file through LOCKING, and with the CLOSE of another open behind.
    world.done(&[lock(1, &[(7, 0, 1)]), read(1, 0, 9)]);
    assert!(world.unchanged(1));
    world.done(&[lock(1, &[(7, 1, 1)]), core_write(1, 30, b"")]);
    world.done(&[lock(1, &[(7, 2, 1)]), core_read(1, 0, 9)]);
    assert_eq!((world.number(), world.memory_of(1)), (5, (true, 5)));
    world.done(&[read(1, 0, 1), Ask::Close { fid: 2 }]);
    assert!(world.unchanged(1));
}

/// An open that is closed in the chain leaves nothing to ask for.
#[test]
fn closed_behind_its_read() {
    let mut world = five_opens();
    world.done(&[read(1, 0, 1), Ask::Close { fid: 1 }]);
    assert_eq!(unchanged(&world.tables, 1), Err(CallRefusal::NoSuch));
}

/// "A new open has not read, whoever had its FID before": opened by the host or by
/// OPEN_ANDX, of the same file and with the numbers equal.
#[test]
fn a_fid_used_again() {
    for by_name in [false, true] {
        let mut world = five_opens();
        set_catalogue(&mut world.tables, &catalogue(&[(b"LIST", 0)])).unwrap();
        world.tables.files[0].changes = 9;
        world.done(&[read(2, 0, 1)]);
        assert!(world.unchanged(2));
        world.done(&[Ask::Close { fid: 2 }]);
        if by_name {
            world.done(&[open(0, 4, b"list")]);
        } else {
            assert_eq!(add_open(&mut world.tables, 1, 1, 7, 0, 2), Ok(2));
        }
        assert_eq!(world.memory_of(2), (false, 0));
        assert!(!world.unchanged(2));
        world.done(&[read(2, 0, 1)]);
        assert!(world.unchanged(2));
    }
}

/// A READ behind OPEN_ANDX, "where FID 0xFFFF means the file just opened".
#[test]
fn read_of_the_file_just_opened() {
    let mut world = five_opens();
    set_catalogue(&mut world.tables, &catalogue(&[(b"LIST", 0)])).unwrap();
    world.tables.files[0].changes = 9;
    world.done(&[open(0, 4, b"list"), read(JUST_OPENED, 0, 1)]);
    assert_eq!(world.memory_of(6), (true, 9));
    assert!(world.unchanged(6));
    // Of another FID: that one remembers.
    world.done(&[open(0, 4, b"list"), read(3, 0, 1)]);
    assert_eq!(world.memory_of(7), (false, 0));
    assert_eq!((world.unchanged(3), world.unchanged(7)), (true, false));
    // "A READ refused leaves the open standing", and it has not read.
    let reply = world.ask(&[open(1, 4, b"list"), read(JUST_OPENED, 0, 1)]);
    assert_eq!(status(&reply), ACCESS);
    assert_eq!(world.memory_of(8), (false, 0));
    assert!(!world.unchanged(8));
    let reply = world.ask(&[
        open(0, 4, b"list"),
        read(JUST_OPENED, 0, 1),
        Ask::Close { fid: JUST_OPENED },
    ]);
    assert_eq!(status(&reply), NO_OPEN);
    assert!(world.unchanged(9));
}

/// "every load, an empty one too"; of loads that are done.
#[test]
fn loads_raise() {
    let mut world = World::with_size(10);
    let mut memory = vec![0; MEMORY_BYTES];
    let tables = &mut world.tables;
    for (file, contents) in [
        (3, &b"list"[..]),
        (3, b"list"),
        (3, b""),
        (3, b""),
        (3, &[5; 4096]),
    ] {
        let number = tables.files[3].changes;
        assert_eq!(load_file(tables, file, contents, &mut memory), Ok(()));
        let size = contents.len() as u64;
        let changes = number + 1;
        assert_eq!(tables.files[3], File { size, changes });
    }
    let before = tables.clone();
    let refusals = [
        (0, &b""[..], MEMORY_BYTES, CallRefusal::HasOpen),
        (16, b"", MEMORY_BYTES, CallRefusal::OutOfRange),
        (3, &[0; 4097], MEMORY_BYTES, CallRefusal::OutOfRange),
        (3, b"", MEMORY_BYTES - 1, CallRefusal::Room),
    ];
    for (file, contents, memory, refusal) in refusals {
        let outcome = load_file(tables, file, contents, &mut vec![0; memory]);
        assert_eq!(outcome, Err(refusal));
        assert!(*tables == before);
    }
    assert!((0..FILES).all(|file| (tables.files[file].changes > 0) == (file == 3)));
}

/// "at its largest it stays", on each kind of change; and then the answer is
/// "changed", though the numbers are equal.
#[test]
fn the_largest_number() {
    let changes = [
        write(1, 0, b"x"),
        core_write(1, 0, b"x"),
        core_write(1, 7, b""),
    ];
    for change in changes {
        let mut world = five_opens();
        world.set_numbers(LARGEST - 2, LARGEST - 2);
        assert!(world.unchanged(1));
        world.done(from_ref(&change));
        assert_eq!((world.number(), world.unchanged(1)), (LARGEST - 1, false));
        world.done(&[read(1, 0, 1)]);
        assert!(world.unchanged(1));
        world.tables.files[0].size = 100;
        world.done(from_ref(&change));
        assert_eq!((world.number(), world.unchanged(1)), (LARGEST, false));
        for _ in 0..3 {
            world.done(&[read(1, 0, 1)]);
            assert_eq!(world.memory_of(1), (true, LARGEST));
            assert!(!world.unchanged(1));
            world.tables.files[0].size = 100;
            world.done(from_ref(&change));
            assert_eq!(world.number(), LARGEST);
        }
    }
    let mut tables = Tables::empty();
    tables.files[3].changes = LARGEST - 1;
    for _ in 0..3 {
        load_file(&mut tables, 3, b"list", &mut vec![0; MEMORY_BYTES]).unwrap();
        assert_eq!(tables.files[3].changes, LARGEST);
    }
    // A chain passes over it.
    let mut world = five_opens();
    world.set_numbers(LARGEST - 1, 0);
    world.done(&[
        write(1, 0, b"a"),
        write(2, 0, b"b"),
        write(4, 0, b"c"),
        read(1, 0, 1),
    ]);
    assert_eq!(
        (world.number(), world.memory_of(1)),
        (LARGEST, (true, LARGEST))
    );
    assert!(!world.unchanged(1));
}

/// "exactly if the open has read, the numbers are equal and below the largest"
#[test]
fn the_answer_by_its_definition() {
    let numbers = [0, 1, 2, 0xFFFF, 0x1_0000, 1 << 31, LARGEST - 1, LARGEST];
    let mut world = five_opens();
    for number in numbers {
        for seen in numbers.into_iter().filter(|&seen| seen <= number) {
            for has_read in [false, true] {
                world.set_numbers(number, seen);
                world.tables.opens.records[0].read = has_read;
                let expected = has_read && seen == number && number < LARGEST;
                assert_eq!(world.answers(), [expected, false, false, false, false]);
            }
        }
    }
}

/// "The question is by FID alone: 4, then 6."
#[test]
fn unknown_fids() {
    let mut world = five_opens();
    world.done(&[read(1, 0, 1)]);
    let unknown = Err(CallRefusal::NoSuch);
    for fid in [
        0,
        6,
        64,
        65,
        0xFFFF,
        0x1_0001,
        0x8000_0001,
        1 << 16,
        u32::MAX,
    ] {
        assert_eq!(unchanged(&world.tables, fid), unknown);
    }
    // FID 64 when it is there, and an open of another session, whoever asks.
    while add_open(&mut world.tables, 1, 1, 7, 2, 0).is_ok() {}
    world.done(&[read(64, 0, 1)]);
    assert_eq!(unchanged(&world.tables, 64), Ok(true));
    assert_eq!(unchanged(&world.tables, 63), Ok(false));
    assert_eq!(unchanged(&world.tables, 65), unknown);
    world.done(&[Ask::Logoff]);
    assert_eq!(unchanged(&world.tables, 1), unknown);
    world.tables.files[15].changes = LARGEST + 1;
    for fid in [1, 0, u32::MAX] {
        assert_eq!(unchanged(&world.tables, fid), Err(CallRefusal::NotSound));
    }
}

/// "An open's remembered number doesn't exceed its file's", of an open that has not
/// read too; and a change number has 32 bits, of each file.
#[test]
fn soundness() {
    let mut world = five_opens();
    let tables = &mut world.tables;
    for file in 0..FILES {
        for (changes, sound) in [
            (LARGEST - 1, true),
            (LARGEST, true),
            (LARGEST + 1, false),
            (u64::MAX, false),
        ] {
            tables.files[file].changes = changes;
            assert_eq!(tables.sound(), sound);
        }
        tables.files[file].changes = 0;
    }
    for (open, file) in [(0, 0), (3, 0), (4, 1)] {
        for (changes, seen) in [
            (0, 1),
            (0, u64::MAX),
            (5, 6),
            (LARGEST, LARGEST + 1),
            (LARGEST - 1, LARGEST),
            (5, 5 + (1 << 32)),
        ] {
            for has_read in [false, true] {
                tables.files[file].changes = changes;
                tables.opens.records[open].read = has_read;
                tables.opens.records[open].seen = seen;
                assert!(!tables.sound());
                tables.opens.records[open].seen = changes;
                assert!(tables.sound());
            }
        }
        tables.opens.records[open].seen = 0;
        tables.files[file].changes = 0;
    }
    // Another file's number does not help, and an open that is gone does not hurt.
    tables.opens.records[4].seen = 3;
    tables.files[0].changes = 3;
    assert!(!tables.sound());
    tables.opens.count = 4;
    assert!(tables.sound());
}

/// The words of an open: nine, the last two whether it has read and what it
/// remembers. The words of a file: its size and change number.
const OPEN_1: usize = 131;
const READ: usize = 7;
const SEEN: usize = 8;
const FILE_0: usize = 1348;

fn asked(all: &Words, fid: u32) -> Result<bool, CallRefusal> {
    words::unchanged(all, fid)
}

/// At the boundary: which words a read and a write change.
#[test]
fn words_of_changes() {
    let mut world = five_opens();
    let mut all = [0; WORDS];
    words::pack(&world.tables, &mut all);
    all[FILE_0 + 1] = 6;
    let mut take = |all: &mut Words, asks: &[Ask]| {
        let message = world.message(asks);
        let (mut holder, mut room) = ([0; 6], vec![0; ROOM_BYTES]);
        let memory = &mut world.memory;
        let taken = words::take_message(all, CONNECTION, &message, memory, &mut room, &mut holder);
        assert!(taken.is_ok());
    };
    let mut expected = all;
    take(&mut all, &[read(2, 0, 1)]);
    expected[OPEN_1 + 9 + READ] = 1;
    expected[OPEN_1 + 9 + SEEN] = 6;
    assert_eq!(all, expected);
    assert_eq!((asked(&all, 1), asked(&all, 2)), (Ok(false), Ok(true)));
    take(&mut all, &[write(1, 0, b"x")]);
    expected[FILE_0 + 1] = 7;
    assert_eq!(all, expected);
    take(&mut all, &[core_write(1, 60, b"")]);
    expected[FILE_0..FILE_0 + 2].copy_from_slice(&[60, 8]);
    assert_eq!(all, expected);
    assert_eq!(asked(&all, 2), Ok(false));
    // A FID given up leaves no trace of what was remembered.
    take(&mut all, &[Ask::Close { fid: 2 }]);
    assert_eq!(all[OPEN_1 + 9], 3);
    assert_eq!(all[OPEN_1 + 4 * 9..OPEN_1 + 5 * 9], [0; 9]);
    let mut memory = vec![0; MEMORY_BYTES];
    words::load_file(&mut all, 15, b"abc", &mut memory).unwrap();
    assert_eq!(all[FILE_0 + 30..FILE_0 + 32], [3, 1]);
}

/// "Any words are legal": `read` is 0 or 1, `seen` anything that its file's number
/// allows; words of opens not in use are not looked at.
#[test]
fn words_that_are_not_sound() {
    let mut good = [0; WORDS];
    words::pack(&five_opens().tables, &mut good);
    good[FILE_0 + 1] = 9;
    for (word, value) in [
        (OPEN_1 + READ, 2),
        (OPEN_1 + READ, 256),
        (OPEN_1 + READ, 1 << 32),
        (OPEN_1 + READ, u64::MAX),
        (OPEN_1 + 4 * 9 + READ, 2),
        (OPEN_1 + SEEN, 10),
        (OPEN_1 + SEEN, u64::MAX),
        (OPEN_1 + SEEN, 1 << 32),
        (OPEN_1 + 4 * 9 + SEEN, 1),
        (FILE_0 + 1, LARGEST + 1),
        (FILE_0 + 31, LARGEST + 1),
        (FILE_0 + 31, u64::MAX),
    ] {
        let mut all = good;
        all[word] = value;
        let before = all;
        for fid in [1, 9, 0x1_0001] {
            assert_eq!(asked(&all, fid), Err(CallRefusal::NotSound));
        }
        let outcome = words::add_session(&mut all, 1);
        assert_eq!(outcome, Err(CallRefusal::NotSound));
        assert_eq!(all, before);
    }
    // Behind the five opens in use.
    let behind = OPEN_1 + 5 * 9;
    let mut all = good;
    all[behind + READ] = 2;
    all[behind + SEEN] = u64::MAX;
    assert_eq!(
        (asked(&all, 1), asked(&all, 6)),
        (Ok(false), Err(CallRefusal::NoSuch))
    );
    // An open added there has not read, whatever stood there.
    assert_eq!(words::add_open(&mut all, 1, 1, 7, 0, 2), Ok(6));
    assert_eq!(all[behind..behind + 9], [6, 1, 1, 7, 0, 2, 4, 0, 0]);
    // An open that has not read may have a number all the same.
    let mut all = good;
    all[OPEN_1 + SEEN] = 9;
    assert_eq!(asked(&all, 1), Ok(false));
    all[OPEN_1 + READ] = 1;
    assert_eq!(asked(&all, 1), Ok(true));
}
