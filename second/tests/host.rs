//! The host's calls, soundness, and the tables as words.

mod common;

use common::{lock, share, World, CONNECTION};
use second::builder::Ask;
use second::host::{add_open, add_session, add_tree, drop_connection, load_file};
use second::refusals::{number, CallRefusal};
use second::tables::{Lock, Open, Range, Session, Tables, Tree, MEMORY_BYTES};
use second::words::{self, pack, unpack, WORDS};

#[test]
fn smallest_numbers_are_used_again() {
    let mut tables = Tables::empty();
    for uid in 1..=16 {
        assert_eq!(add_session(&mut tables, u32::from(uid % 3)), Ok(uid));
    }
    assert_eq!(add_session(&mut tables, 5), Err(CallRefusal::Full));
    drop_connection(&mut tables, 2).unwrap();
    assert_eq!(tables.sessions.count, 11);
    let uids: Vec<u16> = tables.sessions.in_use().iter().map(|s| s.uid).collect();
    assert_eq!(uids, [1, 3, 4, 6, 7, 9, 10, 12, 13, 15, 16]);
    assert_eq!(tables.sessions.records[11..], [Session::default(); 5]);
    assert_eq!(add_session(&mut tables, u32::MAX), Ok(2));
    assert_eq!(tables.sessions.records[11].uid, 2);
    assert_eq!(add_session(&mut tables, 0), Ok(5));
    let before = tables.clone();
    assert_eq!(drop_connection(&mut tables, 77), Ok(()));
    assert_eq!(tables, before);
}

#[test]
fn refusals_in_their_order() {
    let mut tables = Tables::empty();
    assert_eq!(add_tree(&mut tables, 1, 2), Err(CallRefusal::OutOfRange));
    assert_eq!(add_tree(&mut tables, 1, 1), Err(CallRefusal::NoSuch));
    add_session(&mut tables, 4).unwrap();
    add_session(&mut tables, 4).unwrap();
    assert_eq!(add_tree(&mut tables, 1, 0), Ok(1));
    for tid in 2..=32 {
        assert_eq!(add_tree(&mut tables, 2, 1), Ok(tid));
    }
    assert_eq!(add_tree(&mut tables, 2, 1), Err(CallRefusal::Full));
    assert_eq!(add_tree(&mut tables, 3, 1), Err(CallRefusal::NoSuch));
    assert_eq!(add_tree(&mut tables, 3, 2), Err(CallRefusal::OutOfRange));
    let mut open = |uid, tid, file, access| add_open(&mut tables, uid, tid, 1, file, access);
    assert_eq!(open(9, 9, 16, 0), Err(CallRefusal::OutOfRange));
    assert_eq!(open(9, 9, 15, 3), Err(CallRefusal::OutOfRange));
    assert_eq!(open(1, 2, 15, 2), Err(CallRefusal::NoSuch));
    assert_eq!(open(1, 1, 15, 1), Err(CallRefusal::ExceedsRight));
    assert_eq!(open(1, 1, 15, 2), Err(CallRefusal::ExceedsRight));
    for fid in 1..=64 {
        assert_eq!(open(2, 2, 15, 2), Ok(fid));
    }
    assert_eq!(open(2, 2, 15, 2), Err(CallRefusal::Full));
    assert_eq!(open(1, 1, 15, 2), Err(CallRefusal::ExceedsRight));
}

/// A number wider than a record's field is the number given, not its low bits.
#[test]
fn wide_numbers() {
    let mut tables = Tables::empty();
    add_session(&mut tables, 1).unwrap();
    for (uid, right, refusal) in [
        (1, 256, CallRefusal::OutOfRange),
        (1, u32::MAX, CallRefusal::OutOfRange),
        (65_537, 257, CallRefusal::OutOfRange),
        (65_537, 1, CallRefusal::NoSuch),
        (u32::MAX, 0, CallRefusal::NoSuch),
    ] {
        assert_eq!(add_tree(&mut tables, uid, right), Err(refusal));
    }
    add_tree(&mut tables, 1, 1).unwrap();
    for (uid, tid, file, access, refusal) in [
        (1, 1, 256, 0, CallRefusal::OutOfRange),
        (1, 1, 0, 258, CallRefusal::OutOfRange),
        (65_537, 1, 0, 0, CallRefusal::NoSuch),
        (1, 65_537, 0, 0, CallRefusal::NoSuch),
    ] {
        let outcome = add_open(&mut tables, uid, tid, 7, file, access);
        assert_eq!(outcome, Err(refusal));
    }
    let mut memory = vec![0; MEMORY_BYTES];
    let outcome = load_file(&mut tables, 256, &[], &mut memory);
    assert_eq!(outcome, Err(CallRefusal::OutOfRange));
}

#[test]
fn loads() {
    let mut tables = Tables::empty();
    let mut memory = vec![0xEE; MEMORY_BYTES];
    let mut load = |tables: &mut Tables, file, bytes: &[u8]| {
        let outcome = load_file(tables, file, bytes, &mut memory);
        (number(&outcome), memory.clone())
    };
    let (given, after) = load(&mut tables, 15, &[1, 2, 3]);
    assert_eq!((given, tables.files[15].size), (0, 3));
    assert!(after[..61440].iter().all(|&byte| byte == 0xEE));
    assert_eq!(after[61440..61444], [1, 2, 3, 0]);
    assert!(after[61443..].iter().all(|&byte| byte == 0));
    assert_eq!(load(&mut tables, 16, &[]).0, 7);
    assert_eq!(load(&mut tables, 15, &[0; 4097]).0, 7);
    assert_eq!(load(&mut tables, 15, &[7; 4096]).0, 0);
    add_session(&mut tables, 1).unwrap();
    add_tree(&mut tables, 1, 0).unwrap();
    add_open(&mut tables, 1, 1, 70_000, 15, 0).unwrap();
    assert_eq!(load(&mut tables, 15, &[]).0, 9);
    assert_eq!(load(&mut tables, 15, &[0; 4097]).0, 7);
    tables.files[3].size = 4097;
    assert_eq!(load(&mut tables, 16, &[]).0, 4);
    assert_eq!(
        load_file(&mut tables, 16, &[], &mut memory[1..]),
        Err(CallRefusal::Room)
    );
}

#[test]
fn removals_take_what_hangs_on_them() {
    let mut world = World::with_size(0);
    let tables = &mut world.tables;
    add_session(tables, CONNECTION).unwrap();
    add_tree(tables, 2, 1).unwrap();
    add_tree(tables, 1, 1).unwrap();
    for (uid, tid, process) in [(2, 2, 7), (1, 3, 7), (1, 3, 8), (1, 1, 65_543)] {
        add_open(tables, uid, tid, process, 0, 2).unwrap();
    }
    world.header.tid = 3;
    world.status(lock(3, &[(7, 30, 1)]));
    world.status(lock(4, &[(7, 40, 1)]));
    world.header.tid = 1;
    world.status(share(5, &[(7, 50, 1)]));
    let fids = |world: &World| {
        world
            .tables
            .opens
            .in_use()
            .iter()
            .map(|o| o.fid)
            .collect::<Vec<_>>()
    };
    // Process 7 of UID 1 has FIDs 1 and 3; 65,543 is another process.
    world.ask(&[Ask::ProcessExit]);
    assert_eq!(fids(&world), [2, 4, 5]);
    let locked: Vec<u16> = world.tables.locks.in_use().iter().map(|l| l.fid).collect();
    assert_eq!(locked, [4, 5]);
    assert_eq!(world.tables.opens.records[3..5], [Open::default(); 2]);
    world.ask(&[Ask::Close { fid: 5 }]);
    assert_eq!(fids(&world), [2, 4]);
    world.header.tid = 3;
    world.ask(&[Ask::TreeDisconnect]);
    assert_eq!(fids(&world), [2]);
    assert_eq!(world.tables.trees.records[2], Tree::default());
    assert_eq!(world.tables.locks.records[..3], [Lock::default(); 3]);
    let reply = world.ask(&[Ask::Logoff]);
    assert_eq!(reply[32..], [2, 0xFF, 0, 0, 0, 0, 0]);
    assert_eq!(world.tables.trees.in_use().len(), 1);
    drop_connection(&mut world.tables, CONNECTION).unwrap();
    let empty = Tables::empty();
    assert_eq!(world.tables, empty);
}

/// Each of the sentence's conditions broken alone.
#[test]
fn soundness() {
    let mut world = World::with_size(5);
    add_session(&mut world.tables, 1).unwrap();
    add_tree(&mut world.tables, 2, 0).unwrap();
    add_open(&mut world.tables, 1, 1, 7, 0, 2).unwrap();
    add_open(&mut world.tables, 2, 2, 7, 1, 0).unwrap();
    world.status(lock(1, &[(7, 0, 10), (7, u64::MAX, 1)]));
    let good = world.tables;
    let sound = |change: fn(&mut Tables)| {
        let mut tables = good.clone();
        change(&mut tables);
        tables.sound()
    };
    assert!(sound(|_| {}));
    assert!(sound(|t| t.sessions.records[5].uid = 1));
    assert!(sound(|t| t.sessions.records[1].connection = 9));
    assert!(sound(|t| t.locks.records[0].fid = 2));
    assert!(sound(|t| t.locks.records[2] = t.locks.records[0]));
    assert!(sound(|t| t.files[9].size = 4096));
    let broken: [fn(&mut Tables); 19] = [
        |t| t.sessions.count = 17,
        |t| t.trees.count = 33,
        |t| t.opens.count = 65,
        |t| t.locks.count = usize::MAX,
        |t| t.files[15].size = 4097,
        |t| t.sessions.records[0].uid = 17,
        |t| t.sessions.records[1].uid = 1,
        |t| t.trees.records[0].tid = 0,
        |t| t.trees.records[0].tid = 33,
        |t| t.trees.records[1].uid = 3,
        |t| t.trees.records[1].right = 2,
        |t| t.opens.records[0].fid = 65,
        |t| t.opens.records[0].uid = 2,
        |t| t.opens.records[0].tid = 2,
        |t| t.opens.records[0].file = 16,
        |t| t.opens.records[0].access = 3,
        |t| t.opens.records[2].access = 1,
        |t| t.locks.records[0].fid = 4,
        |t| t.locks.records[1].range.length = 2,
    ];
    for (index, change) in broken.into_iter().enumerate() {
        assert!(!sound(change), "{index}");
    }
}

#[test]
fn overlapping_locks_of_one_file_are_shared() {
    let mut world = World::with_size(5);
    add_open(&mut world.tables, 1, 1, 7, 0, 2).unwrap();
    add_open(&mut world.tables, 1, 1, 7, 1, 2).unwrap();
    let sound = |locks: &[(u16, u64, u64, bool)]| {
        let mut tables = world.tables.clone();
        for &(fid, offset, length, shared) in locks {
            let range = Range { offset, length };
            let process = 7;
            tables.locks.push(Lock {
                fid,
                process,
                range,
                shared,
            });
        }
        tables.sound()
    };
    assert!(sound(&[(1, 0, 10, true), (2, 5, 10, true)]));
    assert!(!sound(&[(1, 0, 10, false), (2, 5, 10, true)]));
    assert!(!sound(&[(1, 0, 10, true), (1, 5, 10, false)]));
    assert!(!sound(&[(1, 0, 10, false), (1, 0, 10, false)]));
    assert!(sound(&[(1, 0, 10, false), (3, 5, 10, false)]));
    assert!(sound(&[(1, 0, 10, false), (2, 10, 10, false)]));
    assert!(sound(&[(1, 0, 10, false), (2, 5, 0, false)]));
    assert!(!sound(&[
        (1, 1 << 63, 1 << 63, false),
        (2, u64::MAX, 1, false)
    ]));
    assert!(sound(&[(1, u64::MAX, 0, false), (2, u64::MAX, 1, false)]));
}

#[test]
fn words_are_the_tables() {
    assert_eq!(WORDS, 1605);
    let mut all = [0; WORDS];
    assert_eq!(words::add_session(&mut all, 0xFFFF_FFFF), Ok(1));
    assert_eq!(words::add_tree(&mut all, 1, 1), Ok(1));
    assert_eq!(words::add_open(&mut all, 1, 1, 70_000, 15, 2), Ok(1));
    assert_eq!(all[..3], [1, 1, 0xFFFF_FFFF]);
    assert_eq!(all[33..37], [1, 1, 1, 1]);
    // A host's open denies nothing, so its sharing code is 4, and has not read.
    assert_eq!(all[130..140], [1, 1, 1, 1, 70_000, 15, 2, 4, 0, 0]);
    // The last open and lock, the files and the catalogue are at the end.
    all[130] = 64;
    all[698..707].copy_from_slice(&[64, 2, 3, 4, 5, 1, 3, 1, 0xFFFF_FFFF]);
    all[707] = 128;
    all[1343..1348].copy_from_slice(&[0xFFFF, 0xFFFF_FFFF, u64::MAX, u64::MAX, 1]);
    all[1378..1380].copy_from_slice(&[4096, 0xFFFF_FFFE]);
    all[1380] = 16;
    all[1591..1605].copy_from_slice(&[3, 65, 46, 98, 4, 5, 6, 7, 8, 9, 10, 11, 12, 13]);
    let tables = unpack(&all).unwrap();
    let last = tables.opens.records[63];
    assert_eq!((last.fid, last.uid, last.tid, last.process), (64, 2, 3, 4));
    assert_eq!((last.file, last.access, last.sharing), (5, 1, 3));
    assert_eq!((last.read, last.seen), (true, 0xFFFF_FFFF));
    assert_eq!(tables.locks.records[127].range.offset, u64::MAX);
    let last = tables.files[15];
    assert_eq!((last.size, last.changes), (4096, 0xFFFF_FFFE));
    let last = tables.catalogue.records[15];
    assert_eq!((last.length, last.bytes(), last.file), (3, &b"A.b"[..], 13));
    assert_eq!(last.text[3..], [4, 5, 6, 7, 8, 9, 10, 11, 12]);
    // Packed over other words, the records in use and those given up are
    // written and no other.
    let mut again = all;
    again[1..33].fill(7);
    let mut tables = tables;
    tables.sessions.most = 3;
    pack(&tables, &mut again);
    assert_eq!(
        again[..33],
        [&[1, 1, 0xFFFF_FFFF, 0, 0, 0, 0][..], &[7; 26]].concat()
    );
    assert_eq!(again[33..], all[33..]);
}

/// Every field at its width and past it: of a record in use that is "not
/// sound", of any other it is nothing.
#[test]
fn words_have_widths() {
    let (number, small) = (0xFFFF, 0xFF);
    let opens = [
        number,
        number,
        number,
        0xFFFF_FFFF,
        small,
        small,
        small,
        1,
        u64::MAX,
    ];
    let tables: [(usize, &[u64]); 5] = [
        (0, &[0xFFFF, 0xFFFF_FFFF]),
        (33, &[0xFFFF, 0xFFFF, 0xFF]),
        (130, &opens),
        (707, &[0xFFFF, 0xFFFF_FFFF, u64::MAX, u64::MAX, 1]),
        (1380, &[0xFF; 14]),
    ];
    for (count, widths) in tables {
        for (field, &width) in widths.iter().enumerate() {
            let word = count + 1 + field;
            let mut all = [0; WORDS];
            all[word] = u64::MAX;
            assert_eq!(words::drop_connection(&mut all, 1), Ok(()));
            assert_eq!(all[word], u64::MAX);
            all[count] = 1;
            all[word] = width;
            assert!(unpack(&all).is_some());
            if width < u64::MAX {
                all[word] += 1;
                assert!(unpack(&all).is_none());
                let before = all;
                let outcome = words::add_session(&mut all, 1);
                assert_eq!(outcome, Err(CallRefusal::NotSound));
                assert_eq!(all, before);
            }
        }
    }
}
